import java.io.IOException;
import java.nio.file.Paths;
import java.time.Duration;

/** Runs the steps of a shop's day at a terminal: Pay HOST PORT BOOK STEP... Start `zvt terminal --port PORT` first. */
public final class Pay {
    public static void main(String[] words) throws IOException {
        Zvt.Settings settings = new Zvt.Settings().book(Paths.get(words[2]))
            .printText((line, copy) -> System.out.println("  | " + line));
        if (System.getenv("ZVT_LIBRARY") != null) {
            settings.library(System.getenv("ZVT_LIBRARY"));
        }
        try (Zvt.Till till = new Zvt.Till(settings)) {
            till.connect(words[0], Integer.parseInt(words[1]), Duration.ofSeconds(60));
            for (int at = 3; at < words.length; at++) {
                System.out.println(words[at] + " -> " + run(till, words[at].split(":")));
            }
            till.book().forEach(entry -> System.out.println("booked " + entry));
            till.unclear().forEach(entry -> System.out.println("unclear " + entry));
            System.out.println("total " + till.total());
        }
    }

    /** A step: register, pay:CENTS, reverse:PAYMENT (from 1) or close. */
    private static String run(Zvt.Till till, String[] step) throws IOException {
        try {
            switch (step[0]) {
                case "register": return till.register().toString();
                case "pay": return till.pay(Long.parseLong(step[1])).toString();
                case "reverse": return till.reverse(Integer.parseInt(step[1]) - 1).toString();
                case "close": return till.closeDay().toString();
                default: throw new IllegalArgumentException("a step is register, pay:N, reverse:N or close, and not " + step[0]);
            }
        } catch (Zvt.LineException lost) {
            return lost.outcome + ", and the line is lost";
        } catch (Zvt.RefusedException refused) {
            return "refused: " + refused.getMessage();
        }
    }
}
