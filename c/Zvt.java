import com.sun.jna.LastErrorException;
import com.sun.jna.Library;
import com.sun.jna.Memory;
import com.sun.jna.Native;
import com.sun.jna.NativeLong;
import com.sun.jna.Pointer;
import com.sun.jna.Structure;
import java.io.ByteArrayOutputStream;
import java.io.EOFException;
import java.io.IOException;
import java.net.InetSocketAddress;
import java.net.Socket;
import java.net.SocketTimeoutException;
import java.nio.charset.StandardCharsets;
import java.nio.file.Files;
import java.nio.file.Path;
import java.time.Duration;
import java.time.Instant;
import java.time.temporal.ChronoUnit;
import java.util.ArrayList;
import java.util.Arrays;
import java.util.HashMap;
import java.util.List;
import java.util.Locale;
import java.util.Map;
import java.util.function.BiConsumer;
import java.util.function.BooleanSupplier;
import java.util.function.Consumer;

/**
 * The till of zvt.h for Java 8 and later, over libzvt and JNA. Copy this file into your project and add your package line at the top.
 *
 * <pre>
 * try (Zvt.Till till = new Zvt.Till(new Zvt.Settings().book(Paths.get("day.trace")))) {
 *     till.connect("192.0.2.7", 20007, Duration.ofSeconds(60));
 *     till.register();
 *     System.out.println(till.pay(1000)); // paid, trace 000001, receipt 0001
 * }
 * </pre>
 *
 * The library keeps the till and its book; this class transports the bytes. Amounts are in the smallest unit of the currency.
 * Only one thread at a time may use a till. Like the library, this needs Linux on x86-64.
 */
public final class Zvt {
    private Zvt() {}

    /** Version of the struct layouts and calls that this file expects. */
    static final int ABI = 4;
    private static final int ROOM = 8 * 32, LINE_ROOM = 65534, RECORD_ROOM = 131200;
    private static final long MAX_AMOUNT = 999_999_999_999L;

    /** How an order ended. */
    public enum Ending { NONE, REGISTERED, PAID, DECLINED, ORDER_REFUSED, ABORTED, UNCLEAR, REVERSED, DAY_CLOSED }

    /** Why a payment or a reversal is unclear. Check the terminal's journal before you book or refund the amount. */
    public enum Cause {
        NO_STATUS, CONFLICT, AMOUNT_DIFFERS, NO_TRACE, TRACE_USED, ABORT_AFTER_APPROVAL, LINE, MALFORMED, UNFINISHED, WRONG_CURRENCY
    }

    /**
     * What is in doubt about the reversal of a booked payment. UNCLEAR_REVERSAL: the last reversal may have succeeded or not. Reverse
     * the payment again once you are connected. TAKEN_BACK: the terminal answered B4, because it had reversed the payment before.
     */
    public enum Doubt { NO, UNCLEAR_REVERSAL, TAKEN_BACK }

    private static final int OK = 0, MORE = 1, REFUSED = 2, ARGUMENT = 5, CLOSED = 6, NOTHING_TO_CANCEL = 13;
    private static final int REGISTER = 1, PAY = 2, REVERSE = 3, CLOSE_DAY = 4, CANCEL = 5;
    /** What runs while an ask does. */
    private static final int ASK = 6;

    /** The library refused a call. The till has not changed. The status is one of zvt.h. */
    public static final class RefusedException extends RuntimeException {
        private static final long serialVersionUID = 1;
        public final int status;

        RefusedException(int status) {
            super(wordsOf(status));
            this.status = status;
        }

        private static String wordsOf(int status) {
            switch (status) {
                case 2: return "the bytes are no till's";
                case 3: return "no memory";
                case 7: return "this line brought bytes before that begin no message";
                case 10: return "the line is down";
                case 11: return "the till is not registered";
                case 12: return "an order or an ask runs";
                case 13: return "no payment runs that could be cancelled";
                case 14: return "the book is full";
                case 15: return "no such payment is booked";
                case 16: return "the payment is taken back";
                case 17: return "the payment has no receipt number";
                default: return "status " + status;
            }
        }
    }

    /** The connection ended, failed, timed out or sent invalid bytes, and was closed. */
    public static final class LineException extends IOException {
        private static final long serialVersionUID = 1;
        /** The outcome of the order: a payment or a reversal is unclear. It is null if an ask was running. */
        public final transient Outcome outcome;

        LineException(Outcome outcome, IOException cause) {
            super("the line is lost" + (outcome == null ? "" : ": " + outcome), cause);
            this.outcome = outcome;
        }
    }

    /** The book can't be opened or written. Its till sends nothing more: create a new till, which opens the book again. */
    public static final class BookException extends IOException {
        private static final long serialVersionUID = 1;

        BookException(String text, Throwable cause) {
            super(text, cause);
        }
    }

    /** The outcome of an order. Values that it does not have are null. */
    public static final class Outcome {
        public final Ending ending;
        /** The terminal's code, if it declined, refused or aborted the order. */
        public final Integer code;
        /** The meaning of the code, if it has one. */
        public final String meaning;
        /** The cause, if the payment or the reversal is unclear. */
        public final Cause cause;
        /** The numbers of a paid payment; the receipt number only if the terminal gave one. */
        public final Integer trace, receipt;

        Outcome(OutcomeNumbers from, Calls calls) {
            ending = Ending.values()[from.kind];
            boolean coded = ending == Ending.DECLINED || ending == Ending.ORDER_REFUSED || ending == Ending.ABORTED;
            code = coded ? from.code : null;
            meaning = coded ? nameOf(from.code, calls::zvt_result_name) : null;
            cause = ending == Ending.UNCLEAR ? Cause.values()[from.code - 1] : null;
            trace = ending == Ending.PAID ? from.trace : null;
            receipt = ending == Ending.PAID && from.has_receipt == 1 ? from.receipt : null;
        }

        /** Whether the connection ended the order, rather than a message of the terminal. */
        public boolean isByLine() { return cause == Cause.LINE || cause == Cause.MALFORMED; }

        @Override public String toString() {
            String text = words(ending) + (code == null ? "" : String.format(", code %02X", code)) + (meaning == null ? "" : " (" + meaning + ")");
            return text + (cause == null ? "" : ": " + words(cause)) + numbers(trace, receipt);
        }
    }

    /** A payment, either booked or unclear for a cause. */
    public static final class Entry {
        public final long amount;
        /** The numbers of the payment, each only if the terminal gave it; an unclear payment has those that the terminal named in it. */
        public final Integer trace, receipt;
        /** Whether a reversal of it was completed. */
        public final boolean reversed;
        /** The cause of an unclear payment or reversal, otherwise null. */
        public final Cause cause;
        public final Doubt doubt;
        /** When the payment was ordered, such as 2026-11-28T09:14:03Z, and the caller's reference, each only if the till's book has it. */
        public final String at, reference;

        Entry(EntryNumbers from, boolean booked, Map<String, String> note) {
            at = note.get("at");
            reference = note.get("ref");
            amount = from.amount;
            trace = booked || from.trace != 0 ? Integer.valueOf(from.trace) : null;
            receipt = from.has_receipt == 1 ? from.receipt : null;
            reversed = from.reversed == 1;
            cause = from.cause == 0 ? null : Cause.values()[from.cause - 1];
            doubt = Doubt.values()[from.doubt];
        }

        @Override public String toString() {
            String text = amount + numbers(trace, receipt) + (reversed ? ", taken back" : "");
            text += doubt == Doubt.TAKEN_BACK ? ", taken back before, said the terminal" : doubt == Doubt.UNCLEAR_REVERSAL ? ", unclear reversal" : "";
            return text + (cause == null ? "" : ": " + words(cause));
        }
    }

    /** What became of an unclear order. */
    public enum SettlementKind { PAID, NOT_PAID, REVERSED, NOT_REVERSED }

    /** What the answer to an ask says about an unclear order. */
    public static final class Settlement {
        public final SettlementKind kind;
        /** The index of the unclear payment, or for a reversal of the booked payment, from 0. */
        public final int place;
        /** The numbers of a payment that was paid; the receipt number only if the terminal gave one. */
        public final Integer trace, receipt;

        Settlement(SettlementNumbers from) {
            kind = SettlementKind.values()[from.kind - 1];
            place = (int) from.place;
            trace = kind == SettlementKind.PAID ? Integer.valueOf(from.trace) : null;
            receipt = from.has_receipt == 1 ? from.receipt : null;
        }

        @Override public String toString() { return words(kind) + numbers(trace, receipt); }
    }

    /** The kind of a pending order. */
    public enum PendingKind { PAYMENT, REVERSAL }

    /** An unclear order that the next answer can settle. */
    public static final class Pending {
        public final PendingKind kind;
        /** The index of the unclear payment, or for a reversal of the booked payment, from 0. */
        public final int place;

        Pending(PendingNumbers from) {
            kind = PendingKind.values()[from.kind - 1];
            place = (int) from.place;
        }
    }

    private static String words(Enum<?> it) {
        return it.name().toLowerCase(Locale.ROOT).replace('_', ' ');
    }

    private static String numbers(Integer trace, Integer receipt) {
        return (trace == null ? "" : String.format(", trace %06d", trace)) + (receipt == null ? "" : String.format(", receipt %04X", receipt));
    }

    private static long whole(String name, long number, long least, long most) {
        if (number < least || number > most) {
            throw new IllegalArgumentException(name + " is a number from " + least + " to " + most + ", and not " + number);
        }
        return number;
    }

    /** Returns the bytes of a reference, none if there is none. */
    private static byte[] referenced(String reference) {
        if (reference == null) {
            return new byte[0];
        }
        if (!reference.matches("[!-~]{1,40}")) {
            throw new IllegalArgumentException("reference is 1 to 40 printable ASCII characters without a space, and not " + reference);
        }
        return reference.getBytes(StandardCharsets.US_ASCII);
    }

    /** The code page of the lines to print. */
    public enum Codepage { CP437, CP850, ISO_8859_1, UTF_8 }

    /** The receipt that a line belongs to: NONE for a print line, and if the terminal named none. */
    public enum Copy { NONE, MERCHANT, CUSTOMER, ADMINISTRATION, OTHER }

    /** The settings of a till. */
    public static final class Settings {
        private String library = "libzvt.so.0";
        private int password = 0, config = 0xBE, currency = 978;
        private Path book;
        private Consumer<byte[]> printLine;
        private BiConsumer<String, Copy> printText;
        private Codepage codepage = Codepage.CP437;
        private Consumer<String> heard;

        /** The library's name or path. */
        public Settings library(String name) { library = name; return this; }
        /** A number of up to six digits. */
        public Settings password(int number) { password = (int) whole("password", number, 0, 999_999); return this; }
        public Settings config(int bits) { config = (int) whole("config", bits, 0, 0xFF); return this; }
        /** The code of ISO 4217: 978 is the euro. */
        public Settings currency(int number) { currency = (int) whole("currency", number, 0, 9999); return this; }
        /** The file in which the till keeps its book, which survives every end of the process. */
        public Settings book(Path file) { book = file; return this; }
        /** Receives the bytes of each line to print, in a print line or a text block, in the terminal's character set. Its exceptions
         * wait for the order's outcome. */
        public Settings printLine(Consumer<byte[]> taker) { printLine = taker; return this; }
        /** Receives the text of each line to print, and the receipt that it belongs to. Its exceptions wait, too. */
        public Settings printText(BiConsumer<String, Copy> taker) { printText = taker; return this; }
        /** The code page of these texts. */
        public Settings codepage(Codepage page) { codepage = page; return this; }
        /** Receives the text of each message of the terminal, as the program zvt shows it. Its exceptions wait, too. */
        public Settings heard(Consumer<String> taker) { heard = taker; return this; }
    }

    /** A connection to a terminal. */
    public interface Line extends AutoCloseable {
        /** Reads bytes that arrive within this time. Returns -1 at the end of the connection, and 0 if nothing arrived. */
        int read(byte[] room, int milliseconds) throws IOException;
        void write(byte[] bytes) throws IOException;
        @Override void close();
    }

    private static final class TcpLine implements Line {
        private final Socket socket = new Socket();

        TcpLine(String host, int port, int milliseconds) throws IOException {
            try {
                // Send each message at once: otherwise the system may delay an acknowledgement by 40 ms.
                socket.setTcpNoDelay(true);
                socket.connect(new InetSocketAddress(host, port), milliseconds);
            } catch (IOException error) {
                close();
                throw error;
            }
        }

        @Override public int read(byte[] room, int milliseconds) throws IOException {
            socket.setSoTimeout(milliseconds);
            try {
                return socket.getInputStream().read(room);
            } catch (SocketTimeoutException silent) {
                return 0;
            }
        }

        @Override public void write(byte[] bytes) throws IOException {
            socket.getOutputStream().write(bytes);
        }

        @Override public void close() {
            try {
                socket.close();
            } catch (IOException gone) {
                // It is closed in any case.
            }
        }
    }

    /** The version of the library with this name or path, such as 0.2.0. */
    public static String version(String library) {
        byte[] room = new byte[32];
        long size = open(library).zvt_version(room, new NativeLong(room.length)).longValue();
        return new String(room, 0, (int) size, StandardCharsets.US_ASCII);
    }

    private static Calls open(String name) {
        Calls calls = Native.load(name, Calls.class);
        if (calls.zvt_abi() != ABI) {
            throw new UnsatisfiedLinkError("the calls of " + name + " are of number " + calls.zvt_abi() + ", and Zvt.java is made for " + ABI);
        }
        return calls;
    }

    /** A till. It keeps its book in a file if the settings name one. */
    public static final class Till implements AutoCloseable {
        private final Calls calls;
        private final Consumer<byte[]> printLine;
        private final BiConsumer<String, Copy> printText;
        private final Codepage codepage;
        private final Consumer<String> heard;
        private final Memory handle = new Memory(16);
        private final byte[] out = new byte[ROOM], text = new byte[LINE_ROOM], record;
        private final Book book;
        private Line line;
        private int timeout;
        private byte[] unheard = new byte[0];
        private Outcome outcome;
        private Throwable raised;
        private boolean running, closed;

        /** Creates a till. If the file of its book exists, the till continues from it. */
        public Till(Settings settings) throws BookException {
            calls = open(settings.library);
            printLine = settings.printLine;
            printText = settings.printText;
            codepage = settings.codepage;
            heard = settings.heard;
            handle.clear();
            check(calls.zvt_till_new(handle, settings.password, (byte) settings.config, (short) settings.currency));
            record = settings.book == null ? null : new byte[RECORD_ROOM];
            book = settings.book == null ? null : openBook(settings.book, settings.currency);
        }

        private Book openBook(Path path, int currency) throws BookException {
            Book opened = null;
            try {
                opened = new Book(path);
                if (opened.text.length > 0) {
                    recover(path, opened.text);
                }
                opened.settle();
                if (opened.text.length == 0) {
                    Answer answer = new Answer();
                    calls.zvt_record_opening((short) currency, record, new NativeLong(RECORD_ROOM), answer);
                    check(answer.status);
                    opened.append(record, (int) answer.size);
                }
                return opened;
            } catch (BookException | RuntimeException | Error error) {
                if (opened != null) {
                    opened.close();
                }
                calls.zvt_till_free(handle);
                closed = true;
                throw error;
            }
        }

        /** Restores the till from the book's records. */
        private void recover(Path path, byte[] records) throws BookException {
            Answer answer = new Answer();
            calls.zvt_till_recover(handle, records, new NativeLong(records.length), answer);
            if (answer.status == REFUSED) {
                String[] why = {"line %d does not open a book in this currency", "line %d is not part of a valid record",
                    "record %d contradicts the records before it", "line %d is not the check of its record: the file was changed or damaged"};
                throw new BookException(path + " is no book of such a till: " + String.format(why[answer.reason - 1], answer.place), null);
            }
            check(answer.status);
        }

        /** Closes the connection and frees the till. The book on the disk is already complete. */
        @Override public void close() {
            refuseWithin();
            if (closed) {
                return;
            }
            if (line != null) {
                line.close();
                line = null;
            }
            if (book != null) {
                book.close();
            }
            calls.zvt_till_free(handle);
            closed = true;
        }

        private void refuseWithin() {
            if (running) {
                throw new IllegalStateException("a callback can't give its till an order, a line or up");
            }
        }

        private void check(int status) {
            if (status == CLOSED) {
                throw new IllegalStateException("the till is closed");
            }
            if (status != OK) {
                throw new RefusedException(status);
            }
        }

        /** Connects by TCP, and closes an earlier connection. During an order the terminal may be silent for the timeout. */
        public void connect(String host, int port, Duration timeout) throws IOException {
            whole("port", port, 1, 65535);
            int milliseconds = (int) whole("timeout in milliseconds", timeout.toMillis(), 1, Integer.MAX_VALUE);
            refuseWithin();
            disconnect();
            connect(new TcpLine(host, port, milliseconds), timeout);
        }

        /** Takes over an open connection. */
        public void connect(Line opened, Duration timeout) throws IOException {
            int milliseconds = (int) whole("timeout in milliseconds", timeout.toMillis(), 1, Integer.MAX_VALUE);
            refuseWithin();
            disconnect();
            try {
                if (book != null) {
                    Answer answer = new Answer();
                    calls.zvt_record_lost(record, new NativeLong(RECORD_ROOM), answer);
                    makeDurable(answer);
                }
                check(calls.zvt_till_connected(handle));
            } catch (IOException | RuntimeException | Error error) {
                opened.close();
                throw error;
            }
            line = opened;
            this.timeout = milliseconds;
            unheard = new byte[0];
        }

        /** Closes the connection. */
        public void disconnect() {
            refuseWithin();
            giveUp();
        }

        private void giveUp() {
            if (line == null) {
                return;
            }
            line.close();
            line = null;
            Step step = new Step();
            check(calls.zvt_till_lost(handle, step));
            ended(step);
        }

        public Outcome register() throws IOException { return run(REGISTER, 0, null, null); }

        public Outcome pay(long amount) throws IOException { return pay(amount, null); }

        /** Pays an amount. Five times a second the till asks whether to cancel the payment; the terminal decides. */
        public Outcome pay(long amount, BooleanSupplier wantsCancel) throws IOException { return pay(amount, wantsCancel, null); }

        /** Pays an amount. The book keeps the time of the payment and the reference, 1 to 40 printable ASCII characters without a
         * space, or null. */
        public Outcome pay(long amount, BooleanSupplier wantsCancel, String reference) throws IOException {
            return run(PAY, whole("amount", amount, 1, MAX_AMOUNT), wantsCancel, reference);
        }

        /** Reverses the payment at this index of the book, from 0. */
        public Outcome reverse(int place) throws IOException { return reverse(place, null); }

        /** Reverses the payment at this index of the book, from 0. The book keeps the time of the reversal and the reference. */
        public Outcome reverse(int place, String reference) throws IOException {
            return run(REVERSE, whole("place", place, 0, Integer.MAX_VALUE), null, reference);
        }

        public Outcome closeDay() throws IOException { return run(CLOSE_DAY, 0, null, null); }

        public Settlement ask() throws IOException { return ask(null); }

        /**
         * Asks the terminal to repeat its last receipt, and returns the settlement of the pending order, or null if the answer settles
         * nothing. Ask after a registration if an order is pending, or if knowsLast() is false. The terminal has to serve this till
         * alone, and must not continue an order whose connection was lost. The book keeps the time of the ask and the reference.
         * Lines that the terminal wants printed again are handed out as usual.
         */
        public Settlement ask(String reference) throws IOException {
            byte[] named = referenced(reference);
            refuseWithin();
            int before = (int) state().settled;
            Step step = new Step();
            check(calls.zvt_till_ask(handle, out, new NativeLong(ROOM), step));
            byte[] message = Arrays.copyOf(out, (int) step.send);
            exchange(() -> recordAndSendAsk(message, named), () -> state().running != ASK, null);
            List<Settlement> settled = settled();
            return settled.size() > before ? settled.get(before) : null;
        }

        /** Runs an order to its end, and returns its outcome. */
        private Outcome run(int order, long number, BooleanSupplier wantsCancel, String reference) throws IOException {
            byte[] named = referenced(reference);
            refuseWithin();
            byte[] message = order(order, number);
            exchange(() -> keepAndSend(order, number, message, named), () -> outcome != null, wantsCancel);
            return outcome;
        }

        /** Sends the message of an order or an ask, and reads until that is over. Throws a LineException if the connection ended it, a
         * BookException if the book failed, and, once it is over, the exception of a callback. */
        private void exchange(Sending send, BooleanSupplier isOver, BooleanSupplier wantsCancel) throws IOException {
            raised = null;
            outcome = null;
            running = true;
            IOException broken = null;
            try {
                send.run();
                hearOut(isOver, wantsCancel);
            } catch (BookException error) {
                giveUp();
                throw error;
            } catch (IOException error) {
                giveUp();
                broken = outcome == null || outcome.isByLine() ? error : null;
            } catch (RuntimeException | Error error) {
                giveBookUp();
                giveUp();
                throw error;
            } finally {
                running = false;
            }
            if (raised instanceof Error) {
                throw (Error) raised;
            }
            if (raised != null) {
                throw (RuntimeException) raised;
            }
            if (broken != null) {
                throw new LineException(outcome, broken);
            }
        }

        private byte[] order(int order, long number) {
            Step step = new Step();
            check(calls.zvt_till_order(handle, order, number, out, new NativeLong(ROOM), step));
            return Arrays.copyOf(out, (int) step.send);
        }

        /** Makes the order durable and then sends it. */
        private void keepAndSend(int order, long number, byte[] message, byte[] reference) throws IOException {
            if (book != null) {
                Answer answer = new Answer();
                byte[] at = now();
                calls.zvt_record_order(order, number, message, new NativeLong(message.length), at, new NativeLong(at.length), reference,
                    new NativeLong(reference.length), record, new NativeLong(RECORD_ROOM), answer);
                makeDurable(answer);
            }
            line.write(message);
        }

        /** Makes the ask durable and then sends it. */
        private void recordAndSendAsk(byte[] message, byte[] reference) throws IOException {
            if (book != null) {
                Answer answer = new Answer();
                byte[] at = now();
                calls.zvt_record_ask(at, new NativeLong(at.length), reference, new NativeLong(reference.length), record,
                    new NativeLong(RECORD_ROOM), answer);
                makeDurable(answer);
            }
            line.write(message);
        }

        private void makeDurable(Answer answer) throws BookException {
            if (answer.status != OK) {
                giveBookUp();
                check(answer.status);
            }
            book.append(record, (int) answer.size);
        }

        /** The book may have a record that the till has not processed, or lack one, so this till stops writing it. */
        private void giveBookUp() {
            if (book != null) {
                book.giveUp();
            }
        }

        private void ended(Step step) {
            if (step.outcome.kind != 0) {
                outcome = new Outcome(step.outcome, calls);
            }
        }

        /** Reads from the terminal until the order or the ask is over. An Error of a callback closes the connection at once. */
        private void hearOut(BooleanSupplier isOver, BooleanSupplier wantsCancel) throws IOException {
            byte[] room = new byte[4096];
            long since = System.nanoTime();
            while (!isOver.getAsBoolean()) {
                if (raised instanceof Error) {
                    throw new IOException("a callback ended the order");
                }
                boolean asks = wantsCancel != null && raised == null;
                long rest = timeout - (System.nanoTime() - since) / 1_000_000;
                if (rest <= 0) {
                    throw new SocketTimeoutException("the terminal is silent");
                }
                int size = line.read(room, (int) (asks ? Math.min(200, rest) : rest));
                if (size < 0) {
                    throw new EOFException("the terminal ended the line");
                }
                if (size > 0) {
                    hear(Arrays.copyOf(room, size));
                    since = System.nanoTime();
                } else if (asks && wants(wantsCancel) && cancels()) {
                    wantsCancel = null;
                }
            }
        }

        /** Asks the terminal to cancel the payment. Returns false if it has not acknowledged the payment yet: try again later. */
        private boolean cancels() throws IOException {
            byte[] message;
            try {
                message = order(CANCEL, 0);
            } catch (RefusedException refused) {
                if (refused.status != NOTHING_TO_CANCEL) {
                    throw refused;
                }
                return false;
            }
            keepAndSend(CANCEL, 0, message, new byte[0]);
            return true;
        }

        private boolean wants(BooleanSupplier question) {
            boolean[] answer = {false};
            tell(() -> answer[0] = question.getAsBoolean());
            return answer[0];
        }

        /** Calls a callback. Its first exception waits until everything that the terminal sent is read and answered. */
        private void tell(Runnable callback) {
            try {
                callback.run();
            } catch (RuntimeException | Error error) {
                if (raised == null || error instanceof Error && !(raised instanceof Error)) {
                    raised = error;
                }
            }
        }

        /**
         * Feeds the messages that end in a chunk, and sends the replies. If sending fails, still feeds the rest. Invalid bytes come
         * last: a till with a book treats them as a lost connection.
         */
        private void hear(byte[] piece) throws IOException {
            unheard = joined(unheard, piece);
            IOException broken = null;
            while (unheard.length > 0) {
                Answer answer = new Answer();
                int size = first(answer);
                if (answer.status == MORE) {
                    break;
                }
                if (answer.status == REFUSED && book != null) {
                    throw new IOException("the terminal sent what is no message");
                }
                if (answer.status == REFUSED) {
                    answer.size = unheard.length;
                } else {
                    check(answer.status);
                }
                if (book != null) {
                    book.append(record, size);
                }
                byte[] message = Arrays.copyOf(unheard, (int) answer.size);
                unheard = Arrays.copyOfRange(unheard, message.length, unheard.length);
                broken = feed(message, broken);
                if (heard != null) {
                    tell(() -> heard.accept(textOf(message)));
                }
            }
            if (broken != null) {
                throw broken;
            }
        }

        /** Writes the record of the first message, if the till has a book, and returns its size. The answer describes the message. */
        private int first(Answer answer) {
            if (book != null) {
                return calls.zvt_record_heard(unheard, new NativeLong(unheard.length), record, new NativeLong(RECORD_ROOM), answer).intValue();
            }
            calls.zvt_scan(unheard, new NativeLong(unheard.length), answer);
            return 0;
        }

        private String textOf(byte[] message) {
            byte[] room = new byte[1024];
            int size = room.length;
            do {
                room = new byte[size];
                size = calls.zvt_text(message, new NativeLong(message.length), room, new NativeLong(room.length), new Answer()).intValue();
            } while (size > room.length);
            return new String(room, 0, size, StandardCharsets.US_ASCII);
        }

        /** Feeds a message. Returns the exception if sending the reply failed. */
        private IOException feed(byte[] piece, IOException earlier) throws IOException {
            IOException broken = earlier;
            while (piece.length > 0) {
                Step step = new Step();
                int status = calls.zvt_till_feed_all(
                    handle, piece, new NativeLong(piece.length), out, new NativeLong(ROOM), text, new NativeLong(LINE_ROOM), step);
                ended(step);
                if (step.send > 0 && broken == null) {
                    try {
                        line.write(Arrays.copyOf(out, (int) step.send));
                    } catch (IOException error) {
                        broken = error;
                    }
                }
                if (step.printed == 1) {
                    tell(this::printLines);
                }
                if (status == REFUSED) {
                    throw new IOException("the terminal sent what is no message");
                }
                check(status);
                piece = Arrays.copyOfRange(piece, (int) step.taken, piece.length);
            }
            return broken;
        }

        /** Hands out the lines that the last message has to print. */
        private void printLines() {
            LineNumbers row = new LineNumbers();
            for (int place = 0; ; place++) {
                byte[] bytes = lineAt(place, 0, row);
                if (bytes == null) {
                    return;
                }
                if (printLine != null) {
                    tell(() -> printLine.accept(bytes));
                }
                if (printText != null) {
                    String shown = new String(lineAt(place, codepage.ordinal() + 1, row), StandardCharsets.UTF_8);
                    Copy copy = Copy.values()[row.copy <= Copy.OTHER.ordinal() ? row.copy : Copy.OTHER.ordinal()];
                    tell(() -> printText.accept(shown, copy));
                }
            }
        }

        /** Returns this line of the last message, or null if there is none. */
        private byte[] lineAt(int place, int page, LineNumbers row) {
            byte[] room = text;
            for (;;) {
                int status = calls.zvt_till_line(handle, new NativeLong(place), page, room, new NativeLong(room.length), row);
                if (status == ARGUMENT) {
                    return null;
                }
                check(status);
                if (row.size <= room.length) {
                    return Arrays.copyOf(room, (int) row.size);
                }
                room = new byte[(int) row.size];
            }
        }

        /** The name of the card of the last order, or null if the terminal named none. */
        public String cardName() {
            state();
            return nameOf(0, (number, room, length) -> calls.zvt_till_card_name(handle, room, length));
        }

        /** The number of that card, or null. All digits but the first six and the last four are asterisks. */
        public String cardNumber() {
            state();
            return nameOf(0, (number, room, length) -> calls.zvt_till_card_number(handle, room, length));
        }

        private State state() {
            State state = new State();
            check(calls.zvt_till_state(handle, state));
            return state;
        }

        /** Returns the words of an intermediate status, which says what the terminal waits for or does, or null. */
        public String statusName(int status) { return nameOf(status, calls::zvt_status_name); }

        /** The sum of the booked payments without a completed reversal. */
        public long total() { return state().total; }

        public boolean isRegistered() { return state().registered == 1; }

        /** The last outcome, or null. */
        public Outcome last() {
            Outcome last = new Outcome(state().last, calls);
            return last.ending == Ending.NONE ? null : last;
        }

        /** The booked payments. */
        public List<Entry> book() { return entries(state().booked, true); }

        /** The unclear payments: the terminal may have booked them or not. */
        public List<Entry> unclear() { return entries(state().unclear, false); }

        /** What the answers to asks settled, in their order. Neither the book nor the list of unclear payments changes. */
        public List<Settlement> settled() {
            List<Settlement> settled = new ArrayList<>();
            for (long count = state().settled; settled.size() < count; ) {
                SettlementNumbers one = new SettlementNumbers();
                check(calls.zvt_till_settled(handle, new NativeLong(settled.size()), one));
                settled.add(new Settlement(one));
            }
            return settled;
        }

        private PendingNumbers pendingNumbers() {
            PendingNumbers pending = new PendingNumbers();
            check(calls.zvt_till_pending(handle, pending));
            return pending;
        }

        /** The unclear order that the next answer can settle, or null. After load there is none. */
        public Pending pending() {
            PendingNumbers pending = pendingNumbers();
            return pending.kind == 0 ? null : new Pending(pending);
        }

        /** Whether the till knows the terminal's last status. Only then can an order that becomes unclear be settled. */
        public boolean knowsLast() { return pendingNumbers().last_known == 1; }

        private List<Entry> entries(long count, boolean booked) {
            List<Entry> entries = new ArrayList<>();
            List<Map<String, String>> notes = notes(booked ? "booked" : "unclear");
            for (int place = 0; place < count; place++) {
                EntryNumbers entry = new EntryNumbers();
                NativeLong at = new NativeLong(place);
                check(booked ? calls.zvt_till_entry(handle, at, entry) : calls.zvt_till_unclear(handle, at, entry));
                entries.add(new Entry(entry, booked, place < notes.size() ? notes.get(place) : new HashMap<>()));
            }
            return entries;
        }

        /** The times and references that the book has of the payments of this kind. */
        private List<Map<String, String>> notes(String kind) {
            List<Map<String, String>> notes = new ArrayList<>();
            for (String line : noteLines().split("\n")) {
                String[] words = line.split(" ");
                if (!words[0].equals(kind)) {
                    continue;
                }
                Map<String, String> note = new HashMap<>();
                for (int at = 1; at < words.length; at += 2) {
                    note.put(words[at], words[at + 1]);
                }
                notes.add(note);
            }
            return notes;
        }

        /** The lines of zvt_record_notes for the till's book. */
        private String noteLines() {
            byte[] text = book == null ? new byte[0] : book.records(), room = new byte[0];
            while (text.length > 0) {
                Answer answer = new Answer();
                calls.zvt_record_notes(handle, text, new NativeLong(text.length), room, new NativeLong(room.length), answer);
                check(answer.status);
                if (answer.size == room.length) {
                    break;
                }
                room = new byte[(int) answer.size];
            }
            return new String(room, StandardCharsets.US_ASCII);
        }

        /** The indices of the booked payments whose last reversal is unclear. Reverse them again. */
        public List<Integer> unclearReversals() {
            List<Entry> entries = book();
            List<Integer> places = new ArrayList<>();
            for (int place = 0; place < entries.size(); place++) {
                if (entries.get(place).doubt == Doubt.UNCLEAR_REVERSAL) {
                    places.add(place);
                }
            }
            return places;
        }

        /** Saves the till as bytes, as it would be after losing its connection. They contain the password in clear. */
        public byte[] save() {
            byte[] room = new byte[0];
            while (true) {
                Answer answer = new Answer();
                calls.zvt_till_save(handle, room, new NativeLong(room.length), answer);
                check(answer.status);
                if (answer.size == room.length) {
                    return room;
                }
                room = new byte[(int) answer.size];
            }
        }

        /** Restores the till from saved bytes. It is not connected afterwards. */
        public void load(byte[] saved) {
            if (book != null) {
                throw new IllegalStateException("a till that keeps a book is that of its book, and of no save");
            }
            disconnect();
            state();
            check(calls.zvt_till_load(handle, saved, new NativeLong(saved.length)));
        }
    }

    /** Sends a message. */
    private interface Sending { void run() throws IOException; }

    /** The time in UTC, in the form of a record. */
    private static byte[] now() {
        return Instant.now().truncatedTo(ChronoUnit.SECONDS).toString().getBytes(StandardCharsets.US_ASCII);
    }

    private static byte[] joined(byte[] first, byte[] second) {
        byte[] both = Arrays.copyOf(first, first.length + second.length);
        System.arraycopy(second, 0, both, first.length, second.length);
        return both;
    }

    /**
     * The file of a book: text records, each of which is complete or absent, whenever the process ends.
     *
     * At rest the file is its records and one line feed, the closed gate, which reads as an empty line. It stands for its complete
     * lines up to the first empty one. A record is appended in two steps, each durable before the next: the record without its
     * first byte after the gate, with the next gate; and then the first byte over the gate.
     */
    private static final class Book {
        private static final byte[] FORMAT = "# zvt journal 1".getBytes(StandardCharsets.US_ASCII);
        private static final int OPENING_ROOM = 1 << 8, MOST_AFTER = (1 << 18) + 1;
        private static final Posix POSIX = Native.load("c", Posix.class);
        private final Path path;
        private final int file;
        private long gate;
        private boolean failed, closed;
        /** The records that the file had when it was opened, and the bytes after them. */
        final byte[] text, cut;

        /** Opens the file, or creates it. Writes nothing yet. */
        Book(Path path) throws BookException {
            this.path = path;
            int opened = -1;
            try {
                opened = openOrMake();
                lock(opened);
                byte[] held = durable(opened);
                int end = accepted(held);
                text = Arrays.copyOf(held, end);
                int rest = end < held.length && held[end] == '\n' ? end + 1 : end;
                cut = Arrays.copyOfRange(held, rest, held.length);
            } catch (LastErrorException | BookException error) {
                if (opened >= 0) {
                    POSIX.close(opened);
                }
                throw error instanceof BookException ? (BookException) error
                    : new BookException("cannot open the book " + path + ": " + words((LastErrorException) error), error);
            }
            file = opened;
            gate = text.length;
        }

        private static String words(LastErrorException error) {
            return POSIX.strerror(error.getErrorCode());
        }

        /** Opens the file. If it is created, only its owner may read it. */
        private int openOrMake() throws BookException {
            try {
                return POSIX.open(path.toString(), O_RDWR | O_CREAT | O_EXCL | O_CLOEXEC, 0600);
            } catch (LastErrorException error) {
                if (error.getErrorCode() != EEXIST) {
                    throw error;
                }
            }
            if (!Files.isRegularFile(path)) {
                throw new BookException(path + " is not a regular file: name a regular file, or one that does not exist yet", null);
            }
            return POSIX.open(path.toString(), O_RDWR | O_CLOEXEC);
        }

        private void lock(int file) throws BookException {
            try {
                POSIX.flock(file, LOCK_EX | LOCK_NB);
            } catch (LastErrorException error) {
                if (error.getErrorCode() != EAGAIN) {
                    throw error;
                }
                throw new BookException("another till is using the book " + path + ": stop it first, or name another file", error);
            }
        }

        /** Reads the file and makes its bytes durable: after a kill, bytes that a read returns need not be on the disk. */
        private static byte[] durable(int file) {
            POSIX.fsync(file);
            POSIX.posix_fadvise(file, 0, 0, POSIX_FADV_DONTNEED);
            ByteArrayOutputStream held = new ByteArrayOutputStream();
            byte[] room = new byte[1 << 16];
            for (int size = 1; size > 0; held.write(room, 0, size)) {
                size = POSIX.pread(file, room, new NativeLong(room.length), held.size()).intValue();
            }
            return held.toByteArray();
        }

        /** Returns the size of the complete lines before the first empty one, if a book may have these bytes. */
        private int accepted(byte[] held) throws BookException {
            boolean begun = held.length <= 1 || held[0] == '\n' && held.length <= OPENING_ROOM + 1;
            if (!begun && !Arrays.equals(Arrays.copyOf(held, FORMAT.length), FORMAT)) {
                throw new BookException(path + " is not a till's book (left unchanged): name a book, or a file that does not exist yet", null);
            }
            int end = 0;
            for (int at = 0; at < held.length && !(held[at] == '\n' && at == end); at++) {
                end = held[at] == '\n' ? at + 1 : end;
            }
            if (held.length - end > MOST_AFTER) {
                throw new BookException(held.length - end + " bytes follow the first empty line of " + path
                    + ", more than a crash can leave: if an editor inserted that line, delete it", null);
            }
            return end;
        }

        /** Truncates the file to its records and closes the gate. First appends the removed bytes to the file of this name and .cut. */
        void settle() throws BookException {
            try {
                if (cut.length > 0) {
                    int rest = POSIX.open(path + ".cut", O_WRONLY | O_APPEND | O_CREAT | O_CLOEXEC, 0600);
                    try {
                        for (byte[] left = cut; left.length > 0; ) {
                            int size = POSIX.write(rest, left, new NativeLong(left.length)).intValue();
                            left = Arrays.copyOfRange(left, size, left.length);
                        }
                        POSIX.fsync(rest);
                    } finally {
                        POSIX.close(rest);
                    }
                }
                syncFolder();
                // The truncation is on the disk before a gate is written: after a torn gate, the removed bytes would count.
                POSIX.ftruncate(file, gate);
                POSIX.fdatasync(file);
                write(new byte[] {'\n'}, gate);
            } catch (LastErrorException | IOException error) {
                String why = error instanceof LastErrorException ? words((LastErrorException) error) : error.getMessage();
                throw new BookException("cannot open the book " + path + ": " + why, error);
            }
        }

        /** Makes the name of the file durable. */
        private void syncFolder() throws IOException {
            int folder = POSIX.open(path.toRealPath().getParent().toString(), O_CLOEXEC);
            try {
                POSIX.fsync(folder);
            } finally {
                POSIX.close(folder);
            }
        }

        /** Makes a record durable. It is the given number of bytes: complete lines, none of them empty. */
        void append(byte[] record, int size) throws BookException {
            if (failed || closed) {
                throw new BookException("the book failed before, and takes no record any more: open it anew", null);
            }
            byte[] after = Arrays.copyOfRange(record, 1, size + 1);
            after[size - 1] = '\n';
            try {
                write(after, gate + 1);
                write(new byte[] {record[0]}, gate);
            } catch (LastErrorException error) {
                failed = true;
                throw new BookException("cannot write the book " + path + ": " + words(error), error);
            }
            gate += size;
        }

        private void write(byte[] bytes, long place) {
            while (bytes.length > 0) {
                int size = POSIX.pwrite(file, bytes, new NativeLong(bytes.length), place).intValue();
                bytes = Arrays.copyOfRange(bytes, size, bytes.length);
                place += size;
            }
            POSIX.fdatasync(file);
        }

        /** Returns the text of the records, with those of this process. */
        byte[] records() {
            byte[] text = new byte[(int) gate];
            for (int read = 0; read < text.length; ) {
                byte[] room = new byte[text.length - read];
                int size = POSIX.pread(file, room, new NativeLong(room.length), read).intValue();
                if (size == 0) {
                    return Arrays.copyOf(text, read);
                }
                System.arraycopy(room, 0, text, read, size);
                read += size;
            }
            return text;
        }

        void giveUp() {
            failed = true;
        }

        void close() {
            if (!closed) {
                POSIX.close(file);
                closed = true;
            }
        }
    }

    // Numbers of Linux.
    private static final int O_WRONLY = 1, O_RDWR = 2, O_CREAT = 0100, O_EXCL = 0200, O_APPEND = 02000, O_CLOEXEC = 02000000;
    private static final int LOCK_EX = 2, LOCK_NB = 4, POSIX_FADV_DONTNEED = 4, EAGAIN = 11, EEXIST = 17;

    /** Calls of the C library. */
    interface Posix extends Library {
        int open(String path, int flags, Object... mode) throws LastErrorException;
        int close(int file);
        int flock(int file, int operation) throws LastErrorException;
        int fsync(int file) throws LastErrorException;
        int fdatasync(int file) throws LastErrorException;
        int ftruncate(int file, long size) throws LastErrorException;
        int posix_fadvise(int file, long start, long size, int advice);
        NativeLong pread(int file, byte[] room, NativeLong size, long place) throws LastErrorException;
        NativeLong pwrite(int file, byte[] bytes, NativeLong size, long place) throws LastErrorException;
        NativeLong write(int file, byte[] bytes, NativeLong size) throws LastErrorException;
        String strerror(int number);
    }

    /** A call that writes the name of a number, and returns its size. */
    private interface Name { NativeLong write(int number, byte[] room, NativeLong length); }

    private static String nameOf(int number, Name name) {
        byte[] room = new byte[198];
        int size = name.write(number, room, new NativeLong(room.length)).intValue();
        return size == 0 ? null : new String(room, 0, size, StandardCharsets.ISO_8859_1);
    }

    /** The functions of zvt.h. */
    interface Calls extends Library {
        int zvt_abi();
        NativeLong zvt_version(byte[] room, NativeLong length);
        NativeLong zvt_result_name(int code, byte[] room, NativeLong length);
        NativeLong zvt_status_name(int status, byte[] room, NativeLong length);
        void zvt_scan(byte[] bytes, NativeLong length, Answer answer);
        NativeLong zvt_text(byte[] bytes, NativeLong length, byte[] room, NativeLong roomLength, Answer answer);
        int zvt_till_new(Pointer till, int password, byte config, short currency);
        void zvt_till_free(Pointer till);
        int zvt_till_connected(Pointer till);
        int zvt_till_lost(Pointer till, Step step);
        int zvt_till_order(Pointer till, int order, long number, byte[] out, NativeLong length, Step step);
        int zvt_till_ask(Pointer till, byte[] out, NativeLong length, Step step);
        int zvt_till_settled(Pointer till, NativeLong place, SettlementNumbers settlement);
        int zvt_till_pending(Pointer till, PendingNumbers pending);
        int zvt_till_feed_all(Pointer till, byte[] piece, NativeLong length, byte[] out, NativeLong outLength, byte[] line, NativeLong lineLength, Step step);
        int zvt_till_line(Pointer till, NativeLong place, int codepage, byte[] room, NativeLong length, LineNumbers line);
        NativeLong zvt_till_card_name(Pointer till, byte[] room, NativeLong length);
        NativeLong zvt_till_card_number(Pointer till, byte[] room, NativeLong length);
        int zvt_till_state(Pointer till, State state);
        int zvt_till_entry(Pointer till, NativeLong place, EntryNumbers entry);
        int zvt_till_unclear(Pointer till, NativeLong place, EntryNumbers entry);
        void zvt_till_save(Pointer till, byte[] room, NativeLong length, Answer answer);
        int zvt_till_load(Pointer till, byte[] bytes, NativeLong length);
        void zvt_till_recover(Pointer till, byte[] text, NativeLong length, Answer answer);
        void zvt_record_opening(short currency, byte[] room, NativeLong length, Answer answer);
        void zvt_record_order(int order, long number, byte[] sent, NativeLong sentLength, byte[] at, NativeLong atLength, byte[] reference,
            NativeLong referenceLength, byte[] room, NativeLong length, Answer answer);
        void zvt_record_ask(byte[] at, NativeLong atLength, byte[] reference, NativeLong referenceLength, byte[] room, NativeLong length,
            Answer answer);
        NativeLong zvt_record_heard(byte[] bytes, NativeLong length, byte[] room, NativeLong roomLength, Answer answer);
        void zvt_record_lost(byte[] room, NativeLong length, Answer answer);
        void zvt_record_notes(Pointer till, byte[] text, NativeLong length, byte[] room, NativeLong roomLength, Answer answer);
    }

    // The structs of zvt.h under their names. JNA requires them to be public.

    @Structure.FieldOrder({"size", "place", "reason", "status"})
    public static class Answer extends Structure {
        public long size, place;
        public int reason, status;
    }

    @Structure.FieldOrder({"kind", "code", "trace", "receipt", "has_receipt"})
    public static class OutcomeNumbers extends Structure {
        public int kind, code, trace, receipt, has_receipt;
    }

    @Structure.FieldOrder({"taken", "send", "place", "line", "reason", "message", "printed", "outcome"})
    public static class Step extends Structure {
        public long taken, send, place, line;
        public int reason, message, printed;
        public OutcomeNumbers outcome;
    }

    @Structure.FieldOrder({"size", "copy"})
    public static class LineNumbers extends Structure {
        public long size;
        public int copy;
    }

    @Structure.FieldOrder({"total", "booked", "unclear", "unclear_reversals", "settled", "held", "registered", "running", "last"})
    public static class State extends Structure {
        public long total, booked, unclear, unclear_reversals, settled, held;
        public int registered, running;
        public OutcomeNumbers last;
    }

    @Structure.FieldOrder({"amount", "trace", "receipt", "has_receipt", "reversed", "cause", "doubt"})
    public static class EntryNumbers extends Structure {
        public long amount;
        public int trace, receipt, has_receipt, reversed, cause, doubt;
    }

    @Structure.FieldOrder({"place", "kind", "trace", "receipt", "has_receipt"})
    public static class SettlementNumbers extends Structure {
        public long place;
        public int kind, trace, receipt, has_receipt;
    }

    @Structure.FieldOrder({"place", "kind", "last_known"})
    public static class PendingNumbers extends Structure {
        public long place;
        public int kind, last_known;
    }
}
