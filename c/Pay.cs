// Runs the steps of a shop's day at a terminal: Pay HOST PORT BOOK STEP... Start `zvt terminal --port PORT` first.
using System;
using Zvt;

static class Pay {
    static void Main(string[] words) {
        var settings = new Settings {
            Book = words[2],
            PrintText = (line, copy) => Console.WriteLine("  | " + line),
        };
        using (var till = new Till(settings)) {
            till.Connect(words[0], int.Parse(words[1]), TimeSpan.FromSeconds(60));
            for (int at = 3; at < words.Length; at++) Console.WriteLine(words[at] + " -> " + Run(till, words[at].Split(':')));
            foreach (var entry in till.Book) Console.WriteLine("booked " + entry);
            foreach (var entry in till.Unclear) Console.WriteLine("unclear " + entry);
            Console.WriteLine("total " + till.Total);
        }
    }

    /// <summary>A step: register, pay:CENTS, reverse:PAYMENT (from 1) or close.</summary>
    static string Run(Till till, string[] step) {
        try {
            switch (step[0]) {
                case "register": return till.Register().ToString();
                case "pay": return till.Pay(long.Parse(step[1])).ToString();
                case "reverse": return till.Reverse(int.Parse(step[1]) - 1).ToString();
                case "close": return till.CloseDay().ToString();
                default: throw new ArgumentException("a step is register, pay:N, reverse:N or close, and not " + step[0]);
            }
        } catch (LineException lost) {
            return lost.Outcome + ", and the line is lost";
        } catch (RefusedException refused) {
            return "refused: " + refused.Message;
        }
    }
}
