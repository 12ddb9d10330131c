// Zvt.cs: the till of zvt.h for C# 7 and later, over libzvt. Copy this file into your project.
//
//     using (var till = new Zvt.Till(new Zvt.Settings { Book = "day.trace" })) {
//         till.Connect("192.0.2.7", 20007, TimeSpan.FromSeconds(60));
//         till.Register();
//         Console.WriteLine(till.Pay(1000)); // paid, trace 000001, receipt 0001
//     }
//
// The library keeps the till and its book; this class transports the bytes. Amounts are in the smallest unit of the currency.
// Only one thread at a time may use a till. Like the library, this needs Linux on x86-64.
using System;
using System.Collections.Generic;
using System.Globalization;
using System.IO;
using System.Net.Sockets;
using System.Runtime.InteropServices;
using System.Text;
using System.Threading;
using System.Threading.Tasks;

namespace Zvt {
    /// <summary>How an order ended.</summary>
    public enum Ending { None, Registered, Paid, Declined, OrderRefused, Aborted, Unclear, Reversed, DayClosed }

    /// <summary>Why a payment or a reversal is unclear. Check the terminal's journal before you book or refund the amount.</summary>
    public enum Cause {
        NoStatus = 1, Conflict, AmountDiffers, NoTrace, TraceUsed, AbortAfterApproval, Line, Malformed, Unfinished, WrongCurrency
    }

    /// <summary>What is in doubt about the reversal of a booked payment. UnclearReversal: the last reversal may have succeeded or
    /// not. Reverse the payment again once you are connected. TakenBack: the terminal answered B4, because it had reversed the
    /// payment before.</summary>
    public enum Doubt { No, UnclearReversal, TakenBack }

    /// <summary>The reason why a call was refused. The till has not changed.</summary>
    public enum Status {
        NoTill = 2, NoMemory, NoRoom, Argument, Closed, Stopped,
        Offline = 10, NotRegistered, Busy, NothingToCancel, BookFull, UnknownEntry, AlreadyReversed, NoReceipt
    }

    public sealed class RefusedException : InvalidOperationException {
        public Status Status { get; }
        internal RefusedException(uint status) : base(Words.Of((Status)status)) { Status = (Status)status; }
    }

    /// <summary>The connection ended, failed, timed out or sent invalid bytes, and was closed. The outcome is the result of the
    /// order: a payment or a reversal is unclear. It is null if an ask was running.</summary>
    public sealed class LineException : IOException {
        public Outcome Outcome { get; }
        internal LineException(Outcome outcome, Exception cause) : base("the line is lost" + (outcome == null ? "" : ": " + outcome), cause) { Outcome = outcome; }
    }

    /// <summary>The book can't be opened or written. Its till sends nothing more: create a new till, which opens the book
    /// again.</summary>
    public sealed class BookException : IOException {
        internal BookException(string text, Exception cause = null) : base(text, cause) { }
    }

    /// <summary>The outcome of an order. Values that it does not have are null.</summary>
    public sealed class Outcome {
        public Ending Ending { get; }
        /// <summary>The terminal's code, if it declined, refused or aborted the order.</summary>
        public int? Code { get; }
        /// <summary>The meaning of the code, if it has one.</summary>
        public string Meaning { get; }
        /// <summary>The cause, if the payment or the reversal is unclear.</summary>
        public Cause? Cause { get; }
        /// <summary>The trace number, if the payment is paid.</summary>
        public int? Trace { get; }
        /// <summary>The receipt number, if the payment is paid and the terminal gave one.</summary>
        public int? Receipt { get; }

        internal Outcome(Native.Outcome from) {
            Ending = (Ending)from.kind;
            if (Ending == Ending.Declined || Ending == Ending.OrderRefused || Ending == Ending.Aborted) {
                Code = (int)from.code;
                Meaning = Native.Name(Native.zvt_result_name, from.code);
            }
            if (Ending == Ending.Unclear) Cause = (Cause)from.code;
            if (Ending == Ending.Paid) Trace = (int)from.trace;
            if (Ending == Ending.Paid && from.has_receipt == 1) Receipt = (int)from.receipt;
        }

        /// <summary>Whether the connection ended the order, rather than a message of the terminal.</summary>
        public bool IsByLine { get { return Cause == Zvt.Cause.Line || Cause == Zvt.Cause.Malformed; } }

        public override string ToString() {
            return Words.Of(Ending) + (Code == null ? "" : $", code {Code:X2}") + (Meaning == null ? "" : $" ({Meaning})") + (Cause == null ? "" : ": " + Words.Of(Cause))
                + Words.Numbers(Trace, Receipt);
        }
    }

    /// <summary>A payment, either booked or unclear for a cause.</summary>
    public sealed class Entry {
        public long Amount { get; }
        /// <summary>The trace number; of an unclear payment the one that the terminal named in it, if it named one.</summary>
        public int? Trace { get; }
        /// <summary>The receipt number, if the terminal gave one.</summary>
        public int? Receipt { get; }
        /// <summary>Whether a reversal of it was completed.</summary>
        public bool Reversed { get; }
        /// <summary>The cause of an unclear payment or reversal, otherwise null.</summary>
        public Cause? Cause { get; }
        public Doubt Doubt { get; }
        /// <summary>When the payment was ordered, such as 2026-11-28T09:14:03Z, if the till's book has it, otherwise null.</summary>
        public string At { get; }
        /// <summary>The caller's reference, if the till's book has it, otherwise null.</summary>
        public string Reference { get; }

        internal Entry(Native.Entry from, bool booked, IReadOnlyDictionary<string, string> note) {
            if (note.TryGetValue("at", out var at)) At = at;
            if (note.TryGetValue("ref", out var reference)) Reference = reference;
            Amount = (long)from.amount;
            if (booked || from.trace != 0) Trace = (int)from.trace;
            if (from.has_receipt == 1) Receipt = (int)from.receipt;
            Reversed = from.reversed == 1;
            if (from.cause != 0) Cause = (Cause)from.cause;
            Doubt = (Doubt)from.doubt;
        }

        public override string ToString() {
            return Amount + Words.Numbers(Trace, Receipt) + (Reversed ? ", taken back" : "")
                + (Doubt == Doubt.TakenBack ? ", taken back before, said the terminal" : Doubt == Doubt.UnclearReversal ? ", unclear reversal" : "")
                + (Cause == null ? "" : ": " + Words.Of(Cause));
        }
    }

    /// <summary>What became of an unclear order.</summary>
    public enum SettlementKind { Paid = 1, NotPaid, Reversed, NotReversed }

    /// <summary>What the answer to an ask says about an unclear order.</summary>
    public sealed class Settlement {
        public SettlementKind Kind { get; }
        /// <summary>The index of the unclear payment, or for a reversal of the booked payment, from 0.</summary>
        public int Place { get; }
        /// <summary>The trace number, if the payment was paid.</summary>
        public int? Trace { get; }
        /// <summary>The receipt number, if the payment was paid and the terminal gave one.</summary>
        public int? Receipt { get; }

        internal Settlement(Native.Settlement from) {
            Kind = (SettlementKind)from.kind;
            Place = (int)from.place;
            if (Kind == SettlementKind.Paid) Trace = (int)from.trace;
            if (from.has_receipt == 1) Receipt = (int)from.receipt;
        }

        public override string ToString() { return Words.Of(Kind) + Words.Numbers(Trace, Receipt); }
    }

    /// <summary>The kind of a pending order.</summary>
    public enum PendingKind { Payment = 1, Reversal }

    /// <summary>An unclear order that the next answer can settle.</summary>
    public sealed class Pending {
        public PendingKind Kind { get; }
        /// <summary>The index of the unclear payment, or for a reversal of the booked payment, from 0.</summary>
        public int Place { get; }

        internal Pending(Native.Pending from) {
            Kind = (PendingKind)from.kind;
            Place = (int)from.place;
        }
    }

    static class Words {
        /// <summary>Splits a name into words: "unclear reversal" for UnclearReversal.</summary>
        public static string Of(object name) {
            var text = new StringBuilder();
            foreach (char letter in name.ToString()) text.Append(char.IsUpper(letter) && text.Length > 0 ? " " : "").Append(char.ToLowerInvariant(letter));
            return text.ToString();
        }

        /// <summary>Returns the bytes of a reference, none if there is none.</summary>
        public static byte[] Reference(string name, string reference) {
            if (reference == null) return new byte[0];
            bool right = reference.Length >= 1 && reference.Length <= 40;
            foreach (char letter in reference) right = right && letter > ' ' && letter <= '~';
            if (!right) throw new ArgumentException("1 to 40 printable ASCII characters without a space", name);
            return Encoding.ASCII.GetBytes(reference);
        }

        public static string Of(Status status) {
            switch (status) {
                case Status.NoTill: return "the bytes are no till's";
                case Status.NoMemory: return "no memory";
                case Status.Stopped: return "this line brought bytes before that begin no message";
                case Status.Offline: return "the line is down";
                case Status.NotRegistered: return "the till is not registered";
                case Status.Busy: return "an order runs";
                case Status.NothingToCancel: return "no payment runs that could be cancelled";
                case Status.BookFull: return "the book is full";
                case Status.UnknownEntry: return "no such payment is booked";
                case Status.AlreadyReversed: return "the payment is taken back";
                case Status.NoReceipt: return "the payment has no receipt number";
                default: return "status " + (uint)status;
            }
        }

        public static string Numbers(int? trace, int? receipt) {
            return (trace == null ? "" : $", trace {trace:D6}") + (receipt == null ? "" : $", receipt {receipt:X4}");
        }

        public static long Whole(string name, long number, long least, long most) {
            if (number < least || number > most) throw new ArgumentOutOfRangeException(name, number, $"{name} is a number from {least} to {most}");
            return number;
        }
    }

    /// <summary>The code page of the lines to print.</summary>
    public enum Codepage { Cp437 = 1, Cp850, Iso8859_1, Utf8 }

    /// <summary>The receipt that a line belongs to: None for a print line, and if the terminal named none. Other numbers are as the
    /// terminal sent them.</summary>
    public enum Copy { None, Merchant, Customer, Administration }

    /// <summary>The settings of a till.</summary>
    public sealed class Settings {
        int password, config = 0xBE, currency = 978;
        /// <summary>A number of up to six digits.</summary>
        public int Password { get { return password; } set { password = (int)Words.Whole(nameof(Password), value, 0, 999999); } }
        public int Config { get { return config; } set { config = (int)Words.Whole(nameof(Config), value, 0, 0xFF); } }
        /// <summary>The code of ISO 4217: 978 is the euro.</summary>
        public int Currency { get { return currency; } set { currency = (int)Words.Whole(nameof(Currency), value, 0, 9999); } }
        /// <summary>The file in which the till keeps its book, which survives every end of the process. Null for none.</summary>
        public string Book { get; set; }
        /// <summary>Receives the bytes of each line to print, in a print line or a text block, in the terminal's character set. Its
        /// exceptions are postponed until the order has ended.</summary>
        public Action<byte[]> PrintLine { get; set; }
        /// <summary>Receives the text of each line to print, and the receipt that it belongs to. Its exceptions are postponed, too.</summary>
        public Action<string, Copy> PrintText { get; set; }
        /// <summary>The code page of these texts.</summary>
        public Codepage Codepage { get; set; } = Codepage.Cp437;
        /// <summary>Receives the text of each message of the terminal, as the program zvt shows it. Its exceptions are postponed, too.</summary>
        public Action<string> Heard { get; set; }
    }

    /// <summary>A till. It keeps its book in a file if the settings name one.</summary>
    public sealed class Till : IDisposable {
        const int Room = 8 * 32, LineRoom = 65534, RecordRoom = 131200;
        readonly Native.TillHandle handle = new Native.TillHandle();
        readonly Action<byte[]> printLine;
        readonly Action<string, Copy> printText;
        readonly Codepage codepage;
        readonly Action<string> heard;
        readonly byte[] output = new byte[Room], text = new byte[LineRoom], record;
        readonly Journal journal;
        Stream line;
        TimeSpan timeout;
        byte[] unheard = new byte[0];
        Outcome outcome;
        Exception raised;
        bool running;

        /// <summary>Creates a till. If the file of its book exists, the till continues from it.</summary>
        public Till(Settings settings = null) {
            settings = settings ?? new Settings();
            if (Native.zvt_abi() != Native.Abi) {
                handle.Dispose();
                throw new DllNotFoundException($"the calls of {Native.Library} are of number {Native.zvt_abi()}, and Zvt.cs is made for {Native.Abi}");
            }
            printLine = settings.PrintLine;
            printText = settings.PrintText;
            codepage = settings.Codepage;
            heard = settings.Heard;
            try {
                Check(Native.zvt_till_new(handle, (uint)settings.Password, (byte)settings.Config, (ushort)settings.Currency));
                if (settings.Book == null) return;
                record = new byte[RecordRoom];
                journal = new Journal(settings.Book);
                Begin(settings);
            } catch {
                Dispose();
                throw;
            }
        }

        /// <summary>Returns the words of an intermediate status, which says what the terminal waits for or does, or null.</summary>
        public static string StatusName(byte status) {
            return Native.Name(Native.zvt_status_name, status);
        }

        /// <summary>The version of the library, such as 0.2.0.</summary>
        public static string Version {
            get {
                var room = new byte[32];
                return Encoding.ASCII.GetString(room, 0, (int)Native.zvt_version(room, Native.Size(room)));
            }
        }

        /// <summary>Restores the till of the book, or creates the book.</summary>
        void Begin(Settings settings) {
            if (journal.Text.Length > 0) {
                Native.zvt_till_recover(handle, journal.Text, Native.Size(journal.Text), out var answer);
                string[] why = { "line {0} does not open a book in this currency", "line {0} is not part of a valid record",
                    "record {0} contradicts the records before it", "line {0} is not the check of its record: the file was changed or damaged" };
                if (answer.status == (uint)Status.NoTill)
                    throw new BookException(settings.Book + " is no book of such a till: " + string.Format(why[answer.reason - 1], answer.place));
                Check(answer.status);
            }
            journal.Settle();
            if (journal.Text.Length == 0) {
                Native.zvt_record_opening((ushort)settings.Currency, record, Native.Size(record), out var answer);
                MakeDurable(answer);
            }
        }

        /// <summary>Closes the connection and frees the till. The book on the disk is already complete.</summary>
        public void Dispose() {
            RefuseWithin();
            line?.Dispose();
            line = null;
            journal?.Dispose();
            handle.Dispose();
        }

        void RefuseWithin() {
            if (running) throw new InvalidOperationException("a callback can't give its till an order, a line or up");
        }

        static void Check(uint status) {
            if (status != 0) throw new RefusedException(status);
        }

        /// <summary>Connects by TCP, and closes an earlier connection. During an order the terminal may be silent for the
        /// timeout.</summary>
        public void Connect(string host, int port, TimeSpan timeout) {
            Words.Whole(nameof(port), port, 1, 65535);
            Milliseconds(timeout);
            Disconnect();
            // Send each message at once: otherwise the system may delay an acknowledgement by 40 ms.
            var client = new TcpClient { NoDelay = true };
            try {
                if (!client.ConnectAsync(host, port).Wait(timeout)) throw new IOException($"{host}:{port} does not answer");
                Connect(client.GetStream(), timeout);
            } catch (AggregateException error) {
                client.Close();
                throw new IOException($"cannot connect to {host}:{port}: {error.InnerException.Message}", error.InnerException);
            } catch {
                client.Close();
                throw;
            }
        }

        /// <summary>Takes over an open connection, which is closed with the till.</summary>
        public void Connect(Stream opened, TimeSpan timeout) {
            Milliseconds(timeout);
            Disconnect();
            try {
                if (journal != null) {
                    Native.zvt_record_lost(record, Native.Size(record), out var answer);
                    MakeDurable(answer);
                }
                Check(Native.zvt_till_connected(handle));
            } catch {
                opened.Dispose();
                throw;
            }
            line = opened;
            this.timeout = timeout;
            unheard = new byte[0];
        }

        static void Milliseconds(TimeSpan timeout) {
            if (!(timeout.TotalMilliseconds >= 1 && timeout.TotalMilliseconds <= int.MaxValue))
                throw new ArgumentOutOfRangeException(nameof(timeout), timeout, "timeout is from a millisecond to 24 days");
        }

        /// <summary>Closes the connection.</summary>
        public void Disconnect() {
            RefuseWithin();
            GiveUp();
        }

        void GiveUp() {
            if (line == null) return;
            line.Dispose();
            line = null;
            Check(Native.zvt_till_lost(handle, out var step));
            Ended(step);
        }

        public Outcome Register() { return Run(Native.Register, 0, CancellationToken.None); }

        /// <summary>Pays an amount. If the token requests it, the till asks the terminal to cancel the payment, and the terminal
        /// decides. The book keeps the time of the payment and the reference, 1 to 40 printable ASCII characters without a
        /// space.</summary>
        public Outcome Pay(long amount, CancellationToken cancel = default(CancellationToken), string reference = null) {
            return Run(Native.Pay, Words.Whole(nameof(amount), amount, 1, 999999999999), cancel, reference);
        }

        /// <summary>Reverses the payment at this index of the book, from 0. The book keeps the time of the reversal and the
        /// reference.</summary>
        public Outcome Reverse(int place, string reference = null) {
            return Run(Native.Reverse, Words.Whole(nameof(place), place, 0, int.MaxValue), CancellationToken.None, reference);
        }

        public Outcome CloseDay() { return Run(Native.CloseDay, 0, CancellationToken.None); }

        /// <summary>Asks the terminal to repeat its last receipt, and returns the settlement of the pending order, or null if the
        /// answer settles nothing. Ask after a registration if an order is pending, or if KnowsLast is false. The terminal has to
        /// serve this till alone, and must not continue an order whose connection was lost. The book keeps the time of the ask
        /// and the reference. Lines that the terminal wants printed again are handed out as usual.</summary>
        public Settlement Ask(string reference = null) {
            var named = Words.Reference(nameof(reference), reference);
            RefuseWithin();
            int before = (int)State().settled;
            Check(Native.zvt_till_ask(handle, output, Native.Size(output), out var step));
            var message = Part(output, 0, (int)step.send);
            Exchange(() => RecordAndSendAsk(message, named), () => State().running != Native.Ask, CancellationToken.None);
            var settled = Settled;
            return settled.Count > before ? settled[before] : null;
        }

        /// <summary>Runs an order to its end, and returns its outcome.</summary>
        Outcome Run(uint order, long number, CancellationToken cancel, string reference = null) {
            var named = Words.Reference(nameof(reference), reference);
            RefuseWithin();
            var message = Order(order, number);
            Exchange(() => KeepAndSend(order, number, message, named), () => outcome != null, cancel);
            return outcome;
        }

        /// <summary>Sends the message of an order or an ask, and reads until that is over. Throws a LineException if the connection
        /// ended it, a BookException if the book failed, and, once it is over, the exception of a callback.</summary>
        void Exchange(Action send, Func<bool> isOver, CancellationToken cancel) {
            raised = null;
            outcome = null;
            running = true;
            Exception broken = null;
            try {
                send();
                HearOut(isOver, cancel);
            } catch (BookException) {
                GiveUp();
                throw;
            } catch (Exception error) when (error is IOException || error is SocketException || error is ObjectDisposedException) {
                GiveUp();
                broken = outcome == null || outcome.IsByLine ? error : null;
            } catch {
                journal?.GiveUp();
                GiveUp();
                throw;
            } finally {
                running = false;
            }
            if (raised != null) System.Runtime.ExceptionServices.ExceptionDispatchInfo.Capture(raised).Throw();
            if (broken != null) throw new LineException(outcome, broken);
        }

        byte[] Order(uint order, long number) {
            Check(Native.zvt_till_order(handle, order, (ulong)number, output, Native.Size(output), out var step));
            return Part(output, 0, (int)step.send);
        }

        static byte[] Part(byte[] bytes, int start, int end) {
            var part = new byte[end - start];
            Array.Copy(bytes, start, part, 0, part.Length);
            return part;
        }

        /// <summary>Makes the order durable and then sends it.</summary>
        void KeepAndSend(uint order, long number, byte[] message, byte[] reference) {
            if (journal != null) {
                var at = Now();
                Native.zvt_record_order(order, (ulong)number, message, Native.Size(message), at, Native.Size(at), reference,
                    Native.Size(reference), record, Native.Size(record), out var answer);
                MakeDurable(answer);
            }
            Send(message);
        }

        /// <summary>Makes the ask durable and then sends it.</summary>
        void RecordAndSendAsk(byte[] message, byte[] reference) {
            if (journal != null) {
                var at = Now();
                Native.zvt_record_ask(at, Native.Size(at), reference, Native.Size(reference), record, Native.Size(record), out var answer);
                MakeDurable(answer);
            }
            Send(message);
        }

        /// <summary>The time in UTC, in the form of a record.</summary>
        static byte[] Now() {
            return Encoding.ASCII.GetBytes(DateTime.UtcNow.ToString("yyyy-MM-dd'T'HH:mm:ss'Z'", CultureInfo.InvariantCulture));
        }

        void Send(byte[] message) {
            line.Write(message, 0, message.Length);
            line.Flush();
        }

        /// <summary>After an error the book may lack a record that the till has processed, so this till stops writing it.</summary>
        void MakeDurable(Native.Answer answer) {
            if (answer.status != 0) journal.GiveUp();
            Check(answer.status);
            journal.Append(record, (int)answer.size);
        }

        void Ended(Native.Step step) {
            if (step.outcome.kind != 0) outcome = new Outcome(step.outcome);
        }

        /// <summary>Reads from the terminal until the order or the ask is over.</summary>
        void HearOut(Func<bool> isOver, CancellationToken cancel) {
            var room = new byte[4096];
            while (!isOver()) {
                var reading = line.ReadAsync(room, 0, room.Length);
                if (!Ends(reading, cancel)) {
                    if (Cancels()) cancel = CancellationToken.None;
                    Ends(reading, CancellationToken.None);
                }
                if (reading.Result == 0) throw new EndOfStreamException("the terminal ended the line");
                Hear(Part(room, 0, reading.Result));
            }
        }

        /// <summary>Asks the terminal to cancel the payment. Returns false if the terminal has not acknowledged the payment yet: try
        /// again later.</summary>
        bool Cancels() {
            byte[] message;
            try {
                message = Order(Native.Cancel, 0);
            } catch (RefusedException refused) when (refused.Status == Status.NothingToCancel) {
                return false;
            }
            KeepAndSend(Native.Cancel, 0, message, new byte[0]);
            return true;
        }

        /// <summary>Waits for bytes. Returns false if the payment is to be cancelled first.</summary>
        bool Ends(Task<int> reading, CancellationToken cancel) {
            try {
                if (!reading.Wait((int)timeout.TotalMilliseconds, cancel)) throw new IOException("the terminal is silent");
                return true;
            } catch (OperationCanceledException) when (cancel.IsCancellationRequested) {
                return false;
            } catch (AggregateException error) {
                throw new IOException(error.InnerException.Message, error.InnerException);
            }
        }

        /// <summary>Feeds the messages that end in a chunk, and sends the replies. If sending fails, still feeds the rest. Invalid
        /// bytes come last: a till with a book treats them as a lost connection.</summary>
        void Hear(byte[] piece) {
            Exception broken = null;
            var all = new byte[unheard.Length + piece.Length];
            unheard.CopyTo(all, 0);
            piece.CopyTo(all, unheard.Length);
            unheard = all;
            while (unheard.Length > 0) {
                int size = First(out var answer);
                if (answer.status == Native.More) break;
                bool isMessage = answer.status != (uint)Status.NoTill;
                if (!isMessage && journal != null) throw new IOException("the terminal sent what is no message");
                if (isMessage) Check(answer.status);
                journal?.Append(record, size);
                var message = Part(unheard, 0, isMessage ? (int)answer.size : unheard.Length);
                unheard = Part(unheard, message.Length, unheard.Length);
                Feed(message, ref broken);
                if (heard != null) Tell(() => heard(TextOf(message)));
            }
            if (broken != null) throw broken;
        }

        /// <summary>Writes the record of the first message, if the till has a book. Returns the size of the record; the answer
        /// describes the message.</summary>
        int First(out Native.Answer answer) {
            if (journal != null) return (int)Native.zvt_record_heard(unheard, Native.Size(unheard), record, Native.Size(record), out answer);
            Native.zvt_scan(unheard, Native.Size(unheard), out answer);
            return 0;
        }

        static string TextOf(byte[] message) {
            var room = new byte[1024];
            int size = (int)Native.zvt_text(message, Native.Size(message), room, Native.Size(room), out _);
            if (size > room.Length) size = (int)Native.zvt_text(message, Native.Size(message), room = new byte[size], Native.Size(room), out _);
            return Encoding.ASCII.GetString(room, 0, size);
        }

        void Feed(byte[] piece, ref Exception broken) {
            while (piece.Length > 0) {
                var status = Native.zvt_till_feed_all(handle, piece, Native.Size(piece), output, Native.Size(output), text, Native.Size(text), out var step);
                Ended(step);
                if (step.send > 0 && broken == null) {
                    try {
                        line.Write(output, 0, (int)step.send);
                        line.Flush();
                    } catch (Exception error) when (error is IOException || error is SocketException || error is ObjectDisposedException) {
                        broken = new IOException(error.Message, error);
                    }
                }
                if (step.printed == 1) Tell(PrintLines);
                if (status == (uint)Status.NoTill) throw new IOException("the terminal sent what is no message");
                Check(status);
                piece = Part(piece, (int)step.taken, piece.Length);
            }
        }

        /// <summary>Hands out the lines that the last message has to print.</summary>
        void PrintLines() {
            byte[] bytes;
            for (uint place = 0; (bytes = LineAt(place, 0, out _)) != null; place++) {
                var sent = bytes;
                if (printLine != null) Tell(() => printLine(sent));
                if (printText == null) continue;
                var shown = Encoding.UTF8.GetString(LineAt(place, (uint)codepage, out var copy));
                Tell(() => printText(shown, (Copy)copy));
            }
        }

        /// <summary>Returns this line of the last message, or null if there is none.</summary>
        byte[] LineAt(uint place, uint page, out uint copy) {
            for (var room = text;; ) {
                var status = Native.zvt_till_line(handle, (UIntPtr)place, page, room, Native.Size(room), out var row);
                copy = row.copy;
                if (status == (uint)Status.Argument) return null;
                Check(status);
                if (row.size <= (ulong)room.Length) return Part(room, 0, (int)row.size);
                room = new byte[row.size];
            }
        }

        /// <summary>The name of the card of the last order, or null if the terminal named none.</summary>
        public string CardName { get { return Native.Written((room, length) => Native.zvt_till_card_name(handle, room, length)); } }

        /// <summary>The number of that card, or null. All digits but the first six and the last four are asterisks.</summary>
        public string CardNumber { get { return Native.Written((room, length) => Native.zvt_till_card_number(handle, room, length)); } }

        /// <summary>Postpones the first exception of a callback until everything that the terminal sent is read and answered.</summary>
        void Tell(Action callback) {
            try {
                callback();
            } catch (Exception error) {
                raised = raised ?? error;
            }
        }

        Native.State State() {
            Check(Native.zvt_till_state(handle, out var state));
            return state;
        }

        /// <summary>The sum of the booked payments without a completed reversal.</summary>
        public long Total { get { return (long)State().total; } }

        public bool IsRegistered { get { return State().registered == 1; } }

        /// <summary>The last outcome, or null.</summary>
        public Outcome Last {
            get {
                var last = new Outcome(State().last);
                return last.Ending == Ending.None ? null : last;
            }
        }

        /// <summary>The booked payments.</summary>
        public IReadOnlyList<Entry> Book { get { return Entries(State().booked, true); } }

        /// <summary>The unclear payments: the terminal may have booked them or not.</summary>
        public IReadOnlyList<Entry> Unclear { get { return Entries(State().unclear, false); } }

        /// <summary>What the answers to asks settled, in their order. Neither the book nor the list of unclear payments changes.</summary>
        public IReadOnlyList<Settlement> Settled {
            get {
                var settled = new Settlement[State().settled];
                for (int place = 0; place < settled.Length; place++) {
                    Check(Native.zvt_till_settled(handle, (UIntPtr)place, out var one));
                    settled[place] = new Settlement(one);
                }
                return settled;
            }
        }

        Native.Pending PendingNumbers() {
            Check(Native.zvt_till_pending(handle, out var pending));
            return pending;
        }

        /// <summary>The unclear order that the next answer can settle, or null. After Load there is none.</summary>
        public Pending Pending {
            get {
                var pending = PendingNumbers();
                return pending.kind == 0 ? null : new Pending(pending);
            }
        }

        /// <summary>Whether the till knows the terminal's last status. Only then can an order that becomes unclear be settled.</summary>
        public bool KnowsLast { get { return PendingNumbers().last_known == 1; } }

        Entry[] Entries(ulong count, bool booked) {
            var entries = new Entry[count];
            var notes = Notes(booked ? "booked" : "unclear");
            for (int place = 0; place < entries.Length; place++) {
                Native.Entry entry;
                Check(booked ? Native.zvt_till_entry(handle, (UIntPtr)place, out entry) : Native.zvt_till_unclear(handle, (UIntPtr)place, out entry));
                entries[place] = new Entry(entry, booked, place < notes.Count ? notes[place] : new Dictionary<string, string>());
            }
            return entries;
        }

        /// <summary>The times and references that the book has of the payments of this kind.</summary>
        List<Dictionary<string, string>> Notes(string kind) {
            var notes = new List<Dictionary<string, string>>();
            foreach (var line in NoteLines().Split('\n')) {
                var words = line.Split(' ');
                if (words[0] != kind) continue;
                var note = new Dictionary<string, string>();
                for (int at = 1; at < words.Length; at += 2) note[words[at]] = words[at + 1];
                notes.Add(note);
            }
            return notes;
        }

        /// <summary>The lines of zvt_record_notes for the till's book.</summary>
        string NoteLines() {
            byte[] text = journal == null ? new byte[0] : journal.Records(), room = new byte[0];
            while (text.Length > 0) {
                Native.zvt_record_notes(handle, text, Native.Size(text), room, Native.Size(room), out var answer);
                Check(answer.status);
                if ((int)answer.size == room.Length) break;
                room = new byte[answer.size];
            }
            return Encoding.ASCII.GetString(room);
        }

        /// <summary>The indices of the booked payments whose last reversal is unclear. Reverse them again.</summary>
        public IReadOnlyList<int> UnclearReversals {
            get {
                var book = Book;
                var places = new List<int>();
                for (int place = 0; place < book.Count; place++)
                    if (book[place].Doubt == Doubt.UnclearReversal) places.Add(place);
                return places;
            }
        }

        /// <summary>Saves the till as bytes. They describe the till as it would be after losing its connection, and contain the
        /// password in clear.</summary>
        public byte[] Save() {
            var room = new byte[0];
            while (true) {
                Native.zvt_till_save(handle, room, Native.Size(room), out var answer);
                Check(answer.status);
                if ((int)answer.size == room.Length) return room;
                room = new byte[answer.size];
            }
        }

        /// <summary>Restores the till from saved bytes. It is not connected afterwards.</summary>
        public void Load(byte[] saved) {
            if (journal != null) throw new InvalidOperationException("a till that keeps a book is that of its book, and of no save");
            Disconnect();
            Check(Native.zvt_till_load(handle, saved, Native.Size(saved)));
        }
    }

    /// <summary>The file of a book: text records, each of which is complete or absent, whenever the process ends. At rest the file is
    /// its records and one line feed, the closed gate, which reads as an empty line. It stands for its complete lines up to the first
    /// empty one. A record is appended in two steps, each durable before the next: the record without its first byte after the gate,
    /// with the next gate; and then the first byte over the gate.</summary>
    sealed class Journal : IDisposable {
        static readonly byte[] Format = Encoding.ASCII.GetBytes("# zvt journal 1");
        const int OpeningRoom = 1 << 8, MostAfter = (1 << 18) + 1;
        static readonly byte[] Gate = { (byte)'\n' };
        readonly string path;
        int file = -1;
        long gate;
        bool failed;
        /// <summary>The records that the file had when it was opened.</summary>
        public byte[] Text { get; }
        readonly byte[] cut;

        /// <summary>Opens the file, or creates it. Writes nothing yet.</summary>
        public Journal(string path) {
            this.path = path;
            try {
                file = OpenOrMake();
                if (Native.flock(file, Native.LOCK_EX | Native.LOCK_NB) != 0) {
                    if (Marshal.GetLastWin32Error() != Native.EAGAIN) throw Failure("open");
                    throw new BookException($"another till is using the book {path}: stop it first, or name another file");
                }
                var held = Durable();
                var end = Accepted(held);
                Text = Part(held, 0, end);
                cut = Part(held, end < held.Length && held[end] == '\n' ? end + 1 : end, held.Length);
                gate = end;
            } catch {
                Dispose();
                throw;
            }
        }

        static byte[] Part(byte[] bytes, int start, int end) {
            var part = new byte[end - start];
            Array.Copy(bytes, start, part, 0, part.Length);
            return part;
        }

        BookException Failure(string what) {
            return new BookException($"cannot {what} the book {path}: {Marshal.PtrToStringAnsi(Native.strerror(Marshal.GetLastWin32Error()))}");
        }

        /// <summary>Checks the result of a call that returns -1 if it fails.</summary>
        long Done(long result, string what) {
            if (result < 0) throw Failure(what);
            return result;
        }

        /// <summary>Opens the file. If it is created, only its owner may read it.</summary>
        int OpenOrMake() {
            int made = Native.open(path, Native.O_RDWR | Native.O_CREAT | Native.O_EXCL | Native.O_CLOEXEC, 0x180);
            if (made >= 0) return made;
            if (Marshal.GetLastWin32Error() != Native.EEXIST) throw Failure("open");
            if (!File.Exists(path) || (File.GetAttributes(path) & (FileAttributes.Directory | FileAttributes.Device)) != 0)
                throw new BookException(path + " is not a regular file: name a regular file, or one that does not exist yet");
            return (int)Done(Native.open(path, Native.O_RDWR | Native.O_CLOEXEC, 0), "open");
        }

        /// <summary>Reads the file and makes its bytes durable: after a kill, bytes that a read returns need not be on the
        /// disk.</summary>
        byte[] Durable() {
            Done(Native.fsync(file), "open");
            Native.posix_fadvise(file, 0, 0, Native.POSIX_FADV_DONTNEED);
            var held = new MemoryStream();
            var room = new byte[1 << 16];
            for (long size = 1; size > 0; held.Write(room, 0, (int)size))
                size = Done((long)Native.pread(file, room, Native.Size(room), held.Length), "open");
            return held.ToArray();
        }

        /// <summary>Returns the size of the complete lines before the first empty one, if a book may have these
        /// bytes.</summary>
        int Accepted(byte[] held) {
            bool begun = held.Length <= 1 || held[0] == '\n' && held.Length <= OpeningRoom + 1;
            bool named = held.Length >= Format.Length;
            for (int at = 0; named && at < Format.Length; at++) named = held[at] == Format[at];
            if (!begun && !named)
                throw new BookException(path + " is not a till's book (left unchanged): name a book, or a file that does not exist yet");
            int end = 0;
            for (int at = 0; at < held.Length && !(held[at] == '\n' && at == end); at++)
                if (held[at] == '\n') end = at + 1;
            if (held.Length - end > MostAfter)
                throw new BookException($"{held.Length - end} bytes follow the first empty line of {path}, more than a crash can leave behind: "
                    + "if an editor inserted that line, delete it");
            return end;
        }

        /// <summary>Truncates the file to its records and closes the gate. First appends the removed bytes to the file of this name and .cut.</summary>
        public void Settle() {
            if (cut.Length > 0) KeepCut();
            SyncFolder();
            // The truncation is on the disk before a gate is written: after a torn gate, the removed bytes would count.
            Done(Native.ftruncate(file, gate), "open");
            Done(Native.fdatasync(file), "open");
            Write(Gate, gate, "open");
        }

        void KeepCut() {
            int rest = (int)Done(Native.open(path + ".cut", Native.O_WRONLY | Native.O_APPEND | Native.O_CREAT | Native.O_CLOEXEC, 0x180), "open");
            try {
                for (var left = cut; left.Length > 0; )
                    left = Part(left, (int)Done((long)Native.write(rest, left, Native.Size(left)), "open"), left.Length);
                Done(Native.fsync(rest), "open");
            } finally {
                Native.close(rest);
            }
        }

        /// <summary>Makes the name of the file durable.</summary>
        void SyncFolder() {
            int folder = (int)Done(Native.open(Path.GetDirectoryName(Path.GetFullPath(path)), Native.O_CLOEXEC, 0), "open");
            try {
                Done(Native.fsync(folder), "open");
            } finally {
                Native.close(folder);
            }
        }

        /// <summary>Makes a record durable: the first so many bytes, whole lines, none of them empty.</summary>
        public void Append(byte[] record, int size) {
            if (failed || file < 0) throw new BookException("the book failed before, and takes no record any more: open it anew");
            failed = true;
            var after = Part(record, 1, size + 1);
            after[size - 1] = (byte)'\n';
            Write(after, gate + 1, "write");
            Write(new[] { record[0] }, gate, "write");
            failed = false;
            gate += size;
        }

        void Write(byte[] bytes, long place, string what) {
            while (bytes.Length > 0) {
                long size = Done((long)Native.pwrite(file, bytes, Native.Size(bytes), place), what);
                bytes = Part(bytes, (int)size, bytes.Length);
                place += size;
            }
            Done(Native.fdatasync(file), what);
        }

        /// <summary>Returns the text of the records, with those of this process.</summary>
        public byte[] Records() {
            var text = new MemoryStream();
            var room = new byte[1 << 16];
            for (long size = 1; size > 0 && text.Length < gate; text.Write(room, 0, (int)size)) {
                var wanted = (UIntPtr)(ulong)Math.Min((long)room.Length, gate - text.Length);
                size = Done((long)Native.pread(file, room, wanted, text.Length), "read");
            }
            return text.ToArray();
        }

        /// <summary>Takes no record from now on.</summary>
        public void GiveUp() { failed = true; }

        public void Dispose() {
            if (file >= 0) Native.close(file);
            file = -1;
        }
    }

    /// <summary>The calls and structs of zvt.h, by its names, and calls of the C library.</summary>
    static class Native {
        public const string Library = "libzvt.so.0";
        /// <summary>The layouts and calls that this file is made for.</summary>
        public const uint Abi = 4;
        public const uint More = 1;
        public const uint Register = 1, Pay = 2, Reverse = 3, CloseDay = 4, Cancel = 5;
        /// <summary>What runs while an ask does.</summary>
        public const uint Ask = 6;

        public static UIntPtr Size(byte[] bytes) { return (UIntPtr)bytes.Length; }

        /// <summary>The name that a call writes for a number, or null.</summary>
        public static string Name(Func<uint, byte[], UIntPtr, UIntPtr> call, uint number) {
            return Written((room, length) => call(number, room, length));
        }

        /// <summary>The text that a call writes, or null.</summary>
        public static string Written(Func<byte[], UIntPtr, UIntPtr> call) {
            var room = new byte[198];
            var size = (int)call(room, Size(room));
            return size == 0 ? null : Encoding.GetEncoding("iso-8859-1").GetString(room, 0, size);
        }

        [StructLayout(LayoutKind.Sequential)]
        public struct Answer { public ulong size, place; public uint reason, status; }

        [StructLayout(LayoutKind.Sequential)]
        public struct Outcome { public uint kind, code, trace, receipt, has_receipt; }

        [StructLayout(LayoutKind.Sequential)]
        public struct Step { public ulong taken, send, place, line; public uint reason, message, printed; public Outcome outcome; }

        [StructLayout(LayoutKind.Sequential)]
        public struct Line { public ulong size; public uint copy; }

        [StructLayout(LayoutKind.Sequential)]
        public struct State { public ulong total, booked, unclear, unclear_reversals, settled, held; public uint registered, running; public Outcome last; }

        [StructLayout(LayoutKind.Sequential)]
        public struct Entry { public ulong amount; public uint trace, receipt, has_receipt, reversed, cause, doubt; }

        [StructLayout(LayoutKind.Sequential)]
        public struct Settlement { public ulong place; public uint kind, trace, receipt, has_receipt; }

        [StructLayout(LayoutKind.Sequential)]
        public struct Pending { public ulong place; public uint kind, last_known; }

        /// <summary>The struct zvt_till. It stays where it is, and is freed once.</summary>
        public sealed class TillHandle : SafeHandle {
            const int Bytes = 16;

            public TillHandle() : base(IntPtr.Zero, true) {
                SetHandle(Marshal.AllocHGlobal(Bytes));
                Marshal.Copy(new byte[Bytes], 0, handle, Bytes);
            }

            public override bool IsInvalid { get { return handle == IntPtr.Zero; } }

            protected override bool ReleaseHandle() {
                zvt_till_free(handle);
                Marshal.FreeHGlobal(handle);
                return true;
            }
        }

        [DllImport(Library)] public static extern uint zvt_abi();
        [DllImport(Library)] public static extern UIntPtr zvt_version(byte[] room, UIntPtr length);
        [DllImport(Library)] public static extern UIntPtr zvt_result_name(uint code, byte[] room, UIntPtr length);
        [DllImport(Library)] public static extern UIntPtr zvt_status_name(uint status, byte[] room, UIntPtr length);
        [DllImport(Library)] public static extern void zvt_scan(byte[] bytes, UIntPtr length, out Answer answer);
        [DllImport(Library)] public static extern UIntPtr zvt_text(byte[] bytes, UIntPtr length, [Out] byte[] room, UIntPtr roomLength, out Answer answer);
        [DllImport(Library)] public static extern uint zvt_till_new(TillHandle till, uint password, byte config, ushort currency);
        [DllImport(Library)] static extern void zvt_till_free(IntPtr till);
        [DllImport(Library)] public static extern uint zvt_till_connected(TillHandle till);
        [DllImport(Library)] public static extern uint zvt_till_lost(TillHandle till, out Step step);
        [DllImport(Library)] public static extern uint zvt_till_order(TillHandle till, uint order, ulong number, [Out] byte[] room, UIntPtr length, out Step step);
        [DllImport(Library)] public static extern uint zvt_till_ask(TillHandle till, [Out] byte[] room, UIntPtr length, out Step step);
        [DllImport(Library)] public static extern uint zvt_till_settled(TillHandle till, UIntPtr place, out Settlement settlement);
        [DllImport(Library)] public static extern uint zvt_till_pending(TillHandle till, out Pending pending);
        [DllImport(Library)] public static extern uint zvt_till_feed_all(TillHandle till, byte[] piece, UIntPtr length, [Out] byte[] room,
            UIntPtr roomLength, [Out] byte[] line, UIntPtr lineLength, out Step step);
        [DllImport(Library)] public static extern uint zvt_till_line(TillHandle till, UIntPtr place, uint codepage, [Out] byte[] room, UIntPtr length, out Line line);
        [DllImport(Library)] public static extern UIntPtr zvt_till_card_name(TillHandle till, [Out] byte[] room, UIntPtr length);
        [DllImport(Library)] public static extern UIntPtr zvt_till_card_number(TillHandle till, [Out] byte[] room, UIntPtr length);
        [DllImport(Library)] public static extern uint zvt_till_state(TillHandle till, out State state);
        [DllImport(Library)] public static extern uint zvt_till_entry(TillHandle till, UIntPtr place, out Entry entry);
        [DllImport(Library)] public static extern uint zvt_till_unclear(TillHandle till, UIntPtr place, out Entry entry);
        [DllImport(Library)] public static extern void zvt_till_save(TillHandle till, [Out] byte[] room, UIntPtr length, out Answer answer);
        [DllImport(Library)] public static extern uint zvt_till_load(TillHandle till, byte[] bytes, UIntPtr length);
        [DllImport(Library)] public static extern void zvt_till_recover(TillHandle till, byte[] text, UIntPtr length, out Answer answer);
        [DllImport(Library)] public static extern void zvt_record_opening(ushort currency, [Out] byte[] room, UIntPtr length, out Answer answer);
        [DllImport(Library)] public static extern void zvt_record_order(uint order, ulong number, byte[] sent, UIntPtr sentLength, byte[] at,
            UIntPtr atLength, byte[] reference, UIntPtr referenceLength, [Out] byte[] room, UIntPtr length, out Answer answer);
        [DllImport(Library)] public static extern void zvt_record_ask(byte[] at, UIntPtr atLength, byte[] reference, UIntPtr referenceLength,
            [Out] byte[] room, UIntPtr length, out Answer answer);
        [DllImport(Library)] public static extern UIntPtr zvt_record_heard(byte[] bytes, UIntPtr length, [Out] byte[] room, UIntPtr roomLength, out Answer answer);
        [DllImport(Library)] public static extern void zvt_record_lost([Out] byte[] room, UIntPtr length, out Answer answer);
        [DllImport(Library)] public static extern void zvt_record_notes(TillHandle till, byte[] text, UIntPtr length, [Out] byte[] room,
            UIntPtr roomLength, out Answer answer);

        // Numbers of Linux.
        public const int O_WRONLY = 1, O_RDWR = 2, O_CREAT = 0x40, O_EXCL = 0x80, O_APPEND = 0x400, O_CLOEXEC = 0x80000;
        public const int LOCK_EX = 2, LOCK_NB = 4, POSIX_FADV_DONTNEED = 4, EAGAIN = 11, EEXIST = 17;

        [DllImport("libc", SetLastError = true)] public static extern int open(string path, int flags, int mode);
        [DllImport("libc")] public static extern int close(int file);
        [DllImport("libc", SetLastError = true)] public static extern int flock(int file, int operation);
        [DllImport("libc", SetLastError = true)] public static extern int fsync(int file);
        [DllImport("libc", SetLastError = true)] public static extern int fdatasync(int file);
        [DllImport("libc", SetLastError = true)] public static extern int ftruncate(int file, long size);
        [DllImport("libc")] public static extern int posix_fadvise(int file, long start, long size, int advice);
        [DllImport("libc", SetLastError = true)] public static extern IntPtr pread(int file, [Out] byte[] room, UIntPtr size, long place);
        [DllImport("libc", SetLastError = true)] public static extern IntPtr pwrite(int file, byte[] bytes, UIntPtr size, long place);
        [DllImport("libc", SetLastError = true)] public static extern IntPtr write(int file, byte[] bytes, UIntPtr size);
        [DllImport("libc")] public static extern IntPtr strerror(int number);
    }
}
