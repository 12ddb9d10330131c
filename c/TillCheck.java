import java.io.EOFException;
import java.io.IOException;
import java.lang.reflect.Method;
import java.nio.charset.StandardCharsets;
import java.nio.file.Files;
import java.nio.file.Path;
import java.nio.file.Paths;
import java.time.Duration;
import java.util.ArrayDeque;
import java.util.ArrayList;
import java.util.Arrays;
import java.util.Deque;
import java.util.List;
import java.util.Random;
import com.sun.jna.Structure;

/** What Zvt.java owes its users; languages_check.py gives the words, and says what each of them is to print. */
public final class TillCheck {
    private static final String LIBRARY = System.getenv("ZVT_LIBRARY");
    private static final Duration SECOND = Duration.ofSeconds(1);

    public static void main(String[] words) throws Exception {
        switch (words[0]) {
            case "layouts": layouts(); break;
            case "arguments": arguments(); break;
            case "uses": uses(); break;
            case "play": play(Paths.get(words[1])); break;
            case "leaks": leaks(Integer.parseInt(words[1])); break;
            case "kill": payAndReverse(Integer.parseInt(words[1]), Paths.get(words[2]), words[3]); break;
            default: throw new IllegalArgumentException(words[0]);
        }
    }

    private static Zvt.Settings settings() { return new Zvt.Settings().library(LIBRARY); }

    private static void layouts() throws Exception {
        Method offset = Structure.class.getDeclaredMethod("fieldOffset", String.class);
        offset.setAccessible(true);
        Structure[] structs = {new Zvt.Answer(), new Zvt.OutcomeNumbers(), new Zvt.Step(), new Zvt.LineNumbers(), new Zvt.State(), new Zvt.EntryNumbers(),
            new Zvt.SettlementNumbers(), new Zvt.PendingNumbers()};
        String[] names = {"_Answer", "_Outcome", "_Step", "_Line", "_State", "_Entry", "_Settlement", "_Pending"};
        System.out.println("version " + Zvt.version(LIBRARY));
        for (int at = 0; at < structs.length; at++) {
            StringBuilder line = new StringBuilder(names[at] + " " + structs[at].size());
            for (String member : structs[at].getClass().getAnnotation(Structure.FieldOrder.class).value()) {
                line.append(" ").append(offset.invoke(structs[at], member));
            }
            System.out.println(line);
        }
    }

    private interface Call { Object run() throws Exception; }

    /** Says what a call throws: its exception by the kind that languages_check.py knows, and the text. */
    private static void tells(String name, Call call) {
        try {
            System.out.println(name + ": " + call.run());
        } catch (Exception error) {
            String kind = error instanceof IllegalArgumentException ? "argument" : error instanceof IllegalStateException ? "use"
                : error instanceof Zvt.RefusedException ? "refused" : error instanceof Zvt.LineException ? "line"
                : error instanceof Zvt.BookException ? "book" : error.getClass().getName();
            System.out.println(name + ": " + kind + ": " + error.getMessage());
        }
    }

    private static void arguments() throws IOException {
        tells("password", () -> settings().password(1_000_000));
        tells("config", () -> settings().config(0x1BE));
        tells("currency", () -> settings().currency(-1));
        try (Zvt.Till till = new Zvt.Till(settings())) {
            tells("amount 0", () -> till.pay(0));
            tells("amount", () -> till.pay(1_000_000_000_000L));
            tells("place", () -> till.reverse(-1));
            tells("offline", () -> till.pay(1));
            tells("status 0A", () -> till.statusName(0x0A));
        }
    }

    /** A terminal in memory: what it says is read, and after that the line ends. */
    private static final class Memory implements Zvt.Line {
        final Deque<byte[]> pieces = new ArrayDeque<>();
        final StringBuilder sent = new StringBuilder();
        boolean isClosed, isSilent;

        Memory says(String... digits) {
            for (String piece : digits) {
                pieces.add(bytes(piece));
            }
            return this;
        }

        @Override public int read(byte[] room, int milliseconds) throws IOException {
            byte[] piece = pieces.poll();
            if (piece == null) {
                return isSilent ? 0 : -1;
            }
            if (piece.length > room.length) {
                pieces.addFirst(Arrays.copyOfRange(piece, room.length, piece.length));
            }
            int size = Math.min(piece.length, room.length);
            System.arraycopy(piece, 0, room, 0, size);
            return size;
        }

        @Override public void write(byte[] bytes) throws IOException {
            if (isClosed) {
                throw new EOFException("closed");
            }
            sent.append(digits(bytes));
        }

        @Override public void close() { isClosed = true; }
    }

    private static byte[] bytes(String digits) {
        byte[] bytes = new byte[digits.length() / 2];
        for (int at = 0; at < bytes.length; at++) {
            bytes[at] = (byte) Integer.parseInt(digits.substring(2 * at, 2 * at + 2), 16);
        }
        return bytes;
    }

    private static String digits(byte[] bytes) {
        StringBuilder text = new StringBuilder();
        for (byte it : bytes) {
            text.append(String.format("%02X", it));
        }
        return text.toString();
    }

    private static final String ACK = "800000", DONE = "060F00", LINE = "06D1070054" + "68616E6B73";
    private static final String APPROVED = "040F1027000400000000" + "12340B00001787" + "0005";
    // A receipt of two lines for the customer, the second in code page 437; and a status with the card's name and its number.
    private static final String BLOCK = "06D316" + "0614" + "1F070102" + "250E" + "070544616E6B65" + "0705477281E165";
    private static final String WITH_CARD = "040F27" + "27000400000000" + "12340B00001787" + "0005" + "22F0F86726123456781234" + "8BF0F9" + "6769726F6361726400";

    private static Zvt.Till registered(Zvt.Settings settings, Memory line) throws IOException {
        Zvt.Till till = new Zvt.Till(settings);
        till.connect(line.says(ACK + DONE), SECOND);
        till.register();
        return till;
    }

    /** Closed tills, callbacks that throw or call their till, silence, and cancelled payments. */
    private static void uses() throws IOException {
        Zvt.Till closed = new Zvt.Till(settings());
        closed.close();
        closed.close();
        tells("closed register", closed::register);
        tells("closed pay", () -> closed.pay(1));
        tells("closed reverse", () -> closed.reverse(0));
        tells("closed close day", closed::closeDay);
        tells("closed book", closed::book);
        tells("closed unclear", closed::unclear);
        tells("closed unclear reversals", closed::unclearReversals);
        tells("closed total", closed::total);
        tells("closed registered", closed::isRegistered);
        tells("closed last", closed::last);
        tells("closed card", closed::cardName);
        tells("closed save", closed::save);
        tells("closed load", () -> { closed.load(new byte[8]); return null; });
        tells("closed connect", () -> { closed.connect(new Memory(), SECOND); return null; });
        tells("closed ask", closed::ask);
        tells("closed settled", closed::settled);
        tells("closed pending", closed::pending);
        closed.disconnect();

        Memory first = new Memory();
        Zvt.Till[] till = {null};
        int[] lines = {0};
        till[0] = registered(settings().printLine(line -> { lines[0]++; throw new UnsupportedOperationException("no paper"); }), first);
        first.says(ACK + LINE + APPROVED + DONE + LINE);
        tells("raises", () -> till[0].pay(1234));
        System.out.println("after: " + till[0].last() + ", lines " + lines[0] + ", sent " + first.sent.substring(first.sent.length() - 24));
        first.says(ACK + DONE);
        tells("goes on", till[0]::closeDay);
        till[0].close();

        Memory printer = new Memory();
        List<String> rows = new ArrayList<>();
        till[0] = registered(settings().printText((text, copy) ->
            rows.add(digits(text.getBytes(StandardCharsets.UTF_8)) + " " + copy.ordinal())), printer);
        printer.says(ACK + LINE + BLOCK + WITH_CARD + DONE);
        tells("prints", () -> till[0].pay(1234));
        rows.forEach(System.out::println);
        System.out.println("card " + till[0].cardName() + " " + till[0].cardNumber());
        till[0].close();

        Memory second = new Memory();
        till[0] = registered(settings().printLine(line -> order(till[0])), second);
        second.says(ACK + LINE + APPROVED + DONE);
        tells("within", () -> till[0].pay(1234));
        System.out.println("after: " + till[0].last() + ", booked " + till[0].book().size());
        till[0].close();

        Memory status = new Memory();
        StringBuilder texts = new StringBuilder();
        Zvt.Settings kept = settings().book(Paths.get(System.getenv("ZVT_BOOK"))).heard(texts::append);
        till[0] = registered(kept, status);
        status.says(ACK + "04FF010A" + APPROVED + DONE);
        tells("heard", () -> till[0].pay(1234, null, "A-1009"));
        System.out.print(texts);
        noted(till[0]);
        till[0].close();
        till[0] = new Zvt.Till(kept);
        noted(till[0]);
        till[0].close();

        Memory third = new Memory();
        till[0] = registered(settings(), third);
        third.isSilent = true;
        int[] asked = {0};
        tells("cancels", () -> till[0].pay(1234, () -> {
            third.says(asked[0] == 0 ? ACK : "061E016C");
            return ++asked[0] > 0;
        }));
        System.out.println("sent " + third.sent.substring(third.sent.length() - 12));
        tells("silent", () -> till[0].pay(1234));
        System.out.println("unclear " + till[0].unclear() + ", line closed " + third.isClosed);
        till[0].close();
    }

    private static void noted(Zvt.Till till) {
        Zvt.Entry entry = till.book().get(0);
        System.out.println("noted: " + entry.reference + ", " + entry.at.length());
    }

    private static void order(Zvt.Till till) {
        try {
            till.pay(1);
        } catch (IOException error) {
            throw new AssertionError(error);
        }
    }

    /** Plays the tills, orders and pieces of a file, and says what comes of them. */
    private static void play(Path file) throws IOException {
        Zvt.Till till = null;
        Memory line = null;
        List<String> rows = Files.readAllLines(file);
        for (int at = 0; at < rows.size(); at++) {
            String[] words = rows.get(at).split(" ");
            if (words[0].equals("till")) {
                show(till);
                till = new Zvt.Till(settings());
                line = new Memory();
                line.isClosed = true;
                continue;
            }
            if (line.isClosed) {
                line = new Memory();
                till.connect(line, SECOND);
            }
            line.pieces.clear();
            for (; at + 1 < rows.size() && rows.get(at + 1).startsWith("+"); at++) {
                line.says(rows.get(at + 1).substring(2));
            }
            System.out.println(result(till, words));
        }
        show(till);
    }

    private static String result(Zvt.Till till, String[] words) throws IOException {
        try {
            switch (words[0]) {
                case "register": return till.register().toString();
                case "pay": return till.pay(Long.parseLong(words[1])).toString();
                case "reverse": return till.reverse(Integer.parseInt(words[1])).toString();
                case "ask": return settled(till.ask());
                default: return till.closeDay().toString();
            }
        } catch (Zvt.LineException lost) {
            return (lost.outcome == null ? "ask" : lost.outcome.toString()) + ", and the line is lost";
        } catch (Zvt.RefusedException refused) {
            return "refused: " + refused.status;
        }
    }

    private static String settled(Zvt.Settlement one) { return one == null ? "nothing" : one + ", " + one.place; }

    private static void show(Zvt.Till till) {
        if (till == null) {
            return;
        }
        till.book().forEach(entry -> System.out.println("booked " + entry));
        till.unclear().forEach(entry -> System.out.println("unclear " + entry));
        till.settled().forEach(one -> System.out.println("settled " + settled(one)));
        Zvt.Pending pending = till.pending();
        System.out.println(pending == null ? "knows last " + (till.knowsLast() ? 1 : 0) : "pending " + (pending.kind.ordinal() + 1) + ", " + pending.place);
        System.out.println("total " + till.total() + ", saved " + digits(till.save()));
        till.close();
    }

    private static long residentMegabytes() throws IOException {
        for (String line : Files.readAllLines(Paths.get("/proc/self/status"))) {
            if (line.startsWith("VmRSS:")) {
                return Long.parseLong(line.replaceAll("\\D", "")) / 1024;
            }
        }
        throw new IOException("no VmRSS");
    }

    /** Makes so many tills, each of which pays; says by how many MB the process grew after the first tenth. */
    private static void leaks(int count) throws IOException {
        long before = 0;
        for (int number = 0; number < count; number++) {
            if (number == count / 10) {
                System.gc();
                before = residentMegabytes();
            }
            Memory line = new Memory();
            try (Zvt.Till till = registered(settings(), line)) {
                line.says(ACK + APPROVED + DONE);
                till.pay(1234);
                till.load(till.save());
            }
        }
        System.gc();
        System.out.println("grown " + (residentMegabytes() - before));
    }

    /** The till that kill_check.py kills. It says what it begins, of a reversal the place, and when that has ended. */
    private static void payAndReverse(int port, Path book, String seed) throws IOException {
        Random chance = new Random(seed.hashCode());
        System.out.println("opens 0");
        Zvt.Till till = new Zvt.Till(settings().book(book));
        System.out.println("connects 0");
        till.connect("127.0.0.1", port, Duration.ofSeconds(10));
        System.out.println("registers 0");
        till.register();
        while (true) {
            List<Integer> places = till.unclearReversals();
            if (places.isEmpty() || chance.nextDouble() < 0.7) {
                System.out.println("pays 0");
                till.pay(1 + chance.nextInt(999_999));
                places.clear();
                List<Zvt.Entry> entries = till.book();
                for (int place = Math.max(0, entries.size() - 5); place < entries.size(); place++) {
                    if (!entries.get(place).reversed) {
                        places.add(place);
                    }
                }
            }
            int place = places.get(chance.nextInt(places.size()));
            System.out.println("begins " + place);
            long began = System.nanoTime();
            till.reverse(place);
            System.out.println("ended " + (System.nanoTime() - began) / 1e9);
        }
    }
}
