// What Zvt.cs owes its users; languages_check.py gives the words, and says what each of them is to print.
using System;
using System.Collections.Generic;
using System.Diagnostics;
using System.Globalization;
using System.IO;
using System.Runtime.InteropServices;
using System.Text;
using System.Threading;
using System.Threading.Tasks;
using Zvt;

static class TillCheck {
    static readonly TimeSpan Second = TimeSpan.FromSeconds(1);

    static void Main(string[] words) {
        Console.SetOut(new StreamWriter(Console.OpenStandardOutput()) { AutoFlush = true });
        switch (words[0]) {
            case "layouts": Layouts(); break;
            case "arguments": Arguments(); break;
            case "uses": Uses(); break;
            case "play": Play(words[1]); break;
            case "leaks": Leaks(int.Parse(words[1])); break;
            case "kill": PayAndReverse(int.Parse(words[1]), words[2], words[3]); break;
            default: throw new ArgumentException(words[0]);
        }
    }

    static void Layouts() {
        Console.WriteLine("version " + Till.Version);
        Layout(typeof(Native.Answer));
        Layout(typeof(Native.Outcome));
        Layout(typeof(Native.Step));
        Layout(typeof(Native.Line));
        Layout(typeof(Native.State));
        Layout(typeof(Native.Entry));
        Layout(typeof(Native.Settlement));
        Layout(typeof(Native.Pending));
    }

    static void Layout(Type type) {
        var line = new StringBuilder($"_{type.Name} {Marshal.SizeOf(type)}");
        foreach (var member in type.GetFields()) line.Append(" ").Append(Marshal.OffsetOf(type, member.Name));
        Console.WriteLine(line);
    }

    /// <summary>Says what a call throws: its exception by the kind that languages_check.py knows, and the text.</summary>
    static void Tells(string name, Func<object> call) {
        try {
            Console.WriteLine(name + ": " + call());
        } catch (Exception error) {
            var kind = error is ArgumentException ? "argument" : error is RefusedException ? "refused" : error is LineException ? "line"
                : error is BookException ? "book" : error is ObjectDisposedException || error is InvalidOperationException ? "use" : error.GetType().Name;
            var text = error is ObjectDisposedException ? "the till is closed" : error.Message.Split('\n')[0];
            if (error is ArgumentOutOfRangeException wrong) text = $"{text}, and not {wrong.ActualValue}";
            Console.WriteLine($"{name}: {kind}: {text}");
        }
    }

    static void Arguments() {
        Tells("password", () => new Settings { Password = 1000000 });
        Tells("config", () => new Settings { Config = 0x1BE });
        Tells("currency", () => new Settings { Currency = -1 });
        using (var till = new Till()) {
            Tells("amount 0", () => till.Pay(0));
            Tells("amount", () => till.Pay(1000000000000));
            Tells("place", () => till.Reverse(-1));
            Tells("offline", () => till.Pay(1));
            Tells("status 0A", () => Till.StatusName(0x0A));
        }
    }

    /// <summary>A terminal in memory: what it says is read, and after that the line ends.</summary>
    sealed class Memory : Stream {
        public readonly LinkedList<byte[]> Pieces = new LinkedList<byte[]>();
        public readonly StringBuilder Sent = new StringBuilder();
        public bool IsClosed { get; set; }
        public bool IsSilent { get; set; }
        /// <summary>What it says once a message was sent that begins so.</summary>
        public string Answers, Answer;
        TaskCompletionSource<int> waits;
        byte[] room;
        int offset;

        public Memory Says(params string[] digits) {
            foreach (var piece in digits) Pieces.AddLast(Bytes(piece));
            return this;
        }

        public override Task<int> ReadAsync(byte[] room, int offset, int count, CancellationToken cancel) {
            if (Pieces.Count == 0 && IsSilent) {
                this.room = room;
                this.offset = offset;
                waits = new TaskCompletionSource<int>();
                return waits.Task;
            }
            return Task.FromResult(Read(room, offset, count));
        }

        public override int Read(byte[] room, int offset, int count) {
            if (Pieces.Count == 0) return 0;
            var piece = Pieces.First.Value;
            Pieces.RemoveFirst();
            int size = Math.Min(piece.Length, count);
            Array.Copy(piece, 0, room, offset, size);
            if (size < piece.Length) {
                var rest = new byte[piece.Length - size];
                Array.Copy(piece, size, rest, 0, rest.Length);
                Pieces.AddFirst(rest);
            }
            return size;
        }

        public override void Write(byte[] bytes, int offset, int count) {
            if (IsClosed) throw new EndOfStreamException("closed");
            var message = BitConverter.ToString(bytes, offset, count).Replace("-", "");
            Sent.Append(message);
            if (Answers == null || !message.StartsWith(Answers)) return;
            Says(Answer);
            waits.SetResult(Read(room, this.offset, 4096));
        }

        protected override void Dispose(bool disposing) { IsClosed = true; }
        public override void Flush() { }
        public override bool CanRead { get { return true; } }
        public override bool CanWrite { get { return true; } }
        public override bool CanSeek { get { return false; } }
        public override long Length { get { throw new NotSupportedException(); } }
        public override long Position { get { throw new NotSupportedException(); } set { throw new NotSupportedException(); } }
        public override long Seek(long offset, SeekOrigin origin) { throw new NotSupportedException(); }
        public override void SetLength(long value) { throw new NotSupportedException(); }
    }

    static byte[] Bytes(string digits) {
        var bytes = new byte[digits.Length / 2];
        for (int at = 0; at < bytes.Length; at++) bytes[at] = byte.Parse(digits.Substring(2 * at, 2), NumberStyles.HexNumber);
        return bytes;
    }

    const string Ack = "800000", Done = "060F00", Line = "06D1070054" + "68616E6B73";
    const string Approved = "040F1027000400000000" + "12340B00001787" + "0005";

    // A receipt of two lines for the customer, the second in code page 437; and a status with the card's name and its number.
    const string Block = "06D316" + "0614" + "1F070102" + "250E" + "070544616E6B65" + "0705477281E165";
    const string WithCard = "040F27" + "27000400000000" + "12340B00001787" + "0005" + "22F0F86726123456781234" + "8BF0F9" + "6769726F6361726400";

    static string Digits(byte[] bytes) { return BitConverter.ToString(bytes).Replace("-", ""); }

    static Till Registered(Settings settings, Memory line) {
        var till = new Till(settings);
        till.Connect(line.Says(Ack + Done), Second);
        till.Register();
        return till;
    }

    static string End(StringBuilder text, int size) { return text.ToString(text.Length - size, size); }

    /// <summary>Closed tills, callbacks that throw or call their till, silence, and cancelled payments.</summary>
    static void Uses() {
        var closed = new Till();
        closed.Dispose();
        closed.Dispose();
        Tells("closed register", () => closed.Register());
        Tells("closed pay", () => closed.Pay(1));
        Tells("closed reverse", () => closed.Reverse(0));
        Tells("closed close day", () => closed.CloseDay());
        Tells("closed book", () => closed.Book);
        Tells("closed unclear", () => closed.Unclear);
        Tells("closed unclear reversals", () => closed.UnclearReversals);
        Tells("closed total", () => closed.Total);
        Tells("closed registered", () => closed.IsRegistered);
        Tells("closed last", () => closed.Last);
        Tells("closed card", () => closed.CardName);
        Tells("closed save", () => closed.Save());
        Tells("closed load", () => { closed.Load(new byte[8]); return null; });
        Tells("closed connect", () => { closed.Connect(new Memory(), Second); return null; });
        Tells("closed ask", () => closed.Ask());
        Tells("closed settled", () => closed.Settled);
        Tells("closed pending", () => closed.Pending);
        closed.Disconnect();

        var first = new Memory();
        int lines = 0;
        var till = Registered(new Settings { PrintLine = line => { lines++; throw new NotSupportedException("no paper"); } }, first);
        first.Says(Ack + Line + Approved + Done + Line);
        Tells("raises", () => till.Pay(1234));
        Console.WriteLine($"after: {till.Last}, lines {lines}, sent {End(first.Sent, 24)}");
        first.Says(Ack + Done);
        Tells("goes on", () => till.CloseDay());
        till.Dispose();

        var printer = new Memory();
        var rows = new List<string>();
        till = Registered(new Settings { PrintText = (text, copy) => rows.Add($"{Digits(Encoding.UTF8.GetBytes(text))} {(int)copy}") }, printer);
        printer.Says(Ack + Line + Block + WithCard + Done);
        Tells("prints", () => till.Pay(1234));
        rows.ForEach(Console.WriteLine);
        Console.WriteLine($"card {till.CardName} {till.CardNumber}");
        till.Dispose();

        var second = new Memory();
        till = Registered(new Settings { PrintLine = line => till.Pay(1) }, second);
        second.Says(Ack + Line + Approved + Done);
        Tells("within", () => till.Pay(1234));
        Console.WriteLine($"after: {till.Last}, booked {till.Book.Count}");
        till.Dispose();

        var status = new Memory();
        var texts = new StringBuilder();
        var kept = new Settings { Book = Environment.GetEnvironmentVariable("ZVT_BOOK"), Heard = text => texts.Append(text) };
        till = Registered(kept, status);
        status.Says(Ack + "04FF010A" + Approved + Done);
        Tells("heard", () => till.Pay(1234, default(CancellationToken), "A-1009"));
        Console.Write(texts);
        Noted(till);
        till.Dispose();
        till = new Till(kept);
        Noted(till);
        till.Dispose();

        var third = new Memory();
        till = Registered(new Settings(), third);
        third.IsSilent = true;
        third.Answers = "06B0";
        third.Answer = "061E016C";
        var cancel = new CancellationTokenSource();
        cancel.Cancel();
        third.Says(Ack);
        Tells("cancels", () => till.Pay(1234, cancel.Token));
        Console.WriteLine("sent " + End(third.Sent, 12));
        Tells("silent", () => till.Pay(1234));
        Console.WriteLine($"unclear [{string.Join(", ", till.Unclear)}], line closed {third.IsClosed.ToString().ToLower()}");
        till.Dispose();
    }

    static void Noted(Till till) { Console.WriteLine($"noted: {till.Book[0].Reference}, {till.Book[0].At.Length}"); }

    /// <summary>Plays the tills, orders and pieces of a file, and says what comes of them.</summary>
    static void Play(string file) {
        Till till = null;
        Memory line = null;
        var rows = File.ReadAllLines(file);
        for (int at = 0; at < rows.Length; at++) {
            var words = rows[at].Split(' ');
            if (words[0] == "till") {
                Show(till);
                till = new Till();
                line = new Memory { IsClosed = true };
                continue;
            }
            if (line.IsClosed) till.Connect(line = new Memory(), Second);
            line.Pieces.Clear();
            for (; at + 1 < rows.Length && rows[at + 1][0] == '+'; at++) line.Says(rows[at + 1].Substring(2));
            Console.WriteLine(Result(till, words));
        }
        Show(till);
    }

    static string Result(Till till, string[] words) {
        try {
            switch (words[0]) {
                case "register": return till.Register().ToString();
                case "pay": return till.Pay(long.Parse(words[1])).ToString();
                case "reverse": return till.Reverse(int.Parse(words[1])).ToString();
                case "ask": return Settled(till.Ask());
                default: return till.CloseDay().ToString();
            }
        } catch (LineException lost) {
            return (lost.Outcome == null ? "ask" : lost.Outcome.ToString()) + ", and the line is lost";
        } catch (RefusedException refused) {
            return "refused: " + (uint)refused.Status;
        }
    }

    static string Settled(Settlement one) { return one == null ? "nothing" : $"{one}, {one.Place}"; }

    static void Show(Till till) {
        if (till == null) return;
        foreach (var entry in till.Book) Console.WriteLine("booked " + entry);
        foreach (var entry in till.Unclear) Console.WriteLine("unclear " + entry);
        foreach (var one in till.Settled) Console.WriteLine("settled " + Settled(one));
        var pending = till.Pending;
        Console.WriteLine(pending == null ? $"knows last {(till.KnowsLast ? 1 : 0)}" : $"pending {(int)pending.Kind}, {pending.Place}");
        Console.WriteLine($"total {till.Total}, saved {Digits(till.Save())}");
        till.Dispose();
    }

    static long ResidentMegabytes() {
        GC.Collect();
        foreach (var line in File.ReadLines("/proc/self/status"))
            if (line.StartsWith("VmRSS:")) return long.Parse(line.Substring(6, line.Length - 8).Trim()) / 1024;
        throw new IOException("no VmRSS");
    }

    /// <summary>Makes so many tills, each of which pays; says by how many MB the process grew after the first tenth.</summary>
    static void Leaks(int count) {
        long before = 0;
        for (int number = 0; number < count; number++) {
            if (number == count / 10) before = ResidentMegabytes();
            var line = new Memory();
            using (var till = Registered(new Settings(), line)) {
                line.Says(Ack + Approved + Done);
                till.Pay(1234);
                till.Load(till.Save());
            }
        }
        Console.WriteLine("grown " + (ResidentMegabytes() - before));
    }

    /// <summary>The till that kill_check.py kills. It says what it begins, of a reversal the place, and when that has
    /// ended.</summary>
    static void PayAndReverse(int port, string book, string seed) {
        var chance = new Random(seed.GetHashCode());
        Console.WriteLine("opens 0");
        var till = new Till(new Settings { Book = book });
        Console.WriteLine("connects 0");
        till.Connect("127.0.0.1", port, TimeSpan.FromSeconds(10));
        Console.WriteLine("registers 0");
        till.Register();
        while (true) {
            var places = new List<int>(till.UnclearReversals);
            if (places.Count == 0 || chance.NextDouble() < 0.7) {
                Console.WriteLine("pays 0");
                till.Pay(chance.Next(1, 1000000));
                var entries = till.Book;
                places.Clear();
                for (int place = Math.Max(0, entries.Count - 5); place < entries.Count; place++)
                    if (!entries[place].Reversed) places.Add(place);
            }
            int chosen = places[chance.Next(places.Count)];
            Console.WriteLine("begins " + chosen);
            var watch = Stopwatch.StartNew();
            till.Reverse(chosen);
            Console.WriteLine("ended " + watch.Elapsed.TotalSeconds.ToString(CultureInfo.InvariantCulture));
        }
    }
}
