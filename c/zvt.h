/* zvt.h: reads ZVT messages, renders them as text, and runs a till. For C, and for languages that call C.
 *
 * Bytes go in and bytes come out: the library never opens, reads or writes a socket. It has no globals, no threads and no
 * callbacks. No call aborts or unwinds: if an allocation fails, the call returns ZVT_NO_MEMORY and changes nothing.
 *
 * You must observe these rules, because the library cannot check them:
 *  - A pointer refers to as many bytes as the length beside it says, or to one struct, and is aligned. It is never null unless
 *    the length is 0. What a call writes to (answers, buffers, handles) overlaps none of its other arguments.
 *  - A zvt_till is either all zeroes or as the last call left it. Never copy it. You may move it between calls. Only one thread
 *    at a time may use it.
 *  - Your program provides malloc, realloc and free, and all three belong to the same allocator.
 *
 * A till on TCP works in this order: make an order, save the till (zvt_till_save), and only then send the bytes of the order.
 * Feed it what arrives, save it whenever it reports an outcome, and then send the `send` bytes. Instead of saving, you can keep
 * a journal (zvt_record_order and the calls next to it). Set TCP_NODELAY on the socket, or the system may delay each
 * acknowledgement by about 40 ms.
 */
#ifndef ZVT_H
#define ZVT_H
#include <stddef.h>
#include <stdint.h>
#ifdef __cplusplus
extern "C" {
#endif

/* Version of the struct layouts and call arguments below. If zvt_abi() returns a different number, stop: the library does not
 * match this header. */
#define ZVT_ABI 4
uint32_t zvt_abi(void);
/* Writes the version of the library, such as 0.2.0 (ASCII, no final zero), and returns its size. If the room is too small,
 * nothing is written. */
size_t zvt_version(uint8_t *room, size_t room_length);

/* Statuses. */
enum {
    ZVT_OK = 0, ZVT_WHOLE = 0, ZVT_MORE = 1, ZVT_REFUSED = 2, ZVT_NO_MEMORY = 3,
    ZVT_NO_ROOM = 4,   /* too little room; nothing changed */
    ZVT_ARGUMENT = 5,  /* an argument out of range; nothing changed */
    ZVT_CLOSED = 6,    /* the handle has no till */
    ZVT_STOPPED = 7,   /* this connection sent invalid bytes earlier: close it */
    /* reasons why an order is refused; nothing changed */
    ZVT_OFFLINE = 10, ZVT_NOT_REGISTERED, ZVT_BUSY, ZVT_NOTHING_TO_CANCEL, ZVT_BOOK_FULL, ZVT_UNKNOWN_ENTRY,
    ZVT_ALREADY_REVERSED, ZVT_NO_RECEIPT
};

/* Reasons why a byte is refused. */
enum {
    ZVT_NOT_SHORTEST = 1, ZVT_DOES_NOT_FIT, ZVT_LENGTH_FORM, ZVT_TOO_DEEP, ZVT_TAG_TOO_LONG, ZVT_UNKNOWN_FIELD,
    ZVT_NOT_DIGIT, ZVT_LENGTH_DIGIT
};

/* The reader. */
typedef struct zvt_answer {
    uint64_t size;   /* ZVT_WHOLE: the size of the first message, in bytes */
    uint64_t place;  /* ZVT_REFUSED: index of the first byte that no valid message can contain there */
    uint32_t reason; /* ZVT_REFUSED: ZVT_NOT_SHORTEST .. ZVT_LENGTH_DIGIT */
    uint32_t status; /* ZVT_WHOLE, ZVT_MORE, ZVT_REFUSED or ZVT_NO_MEMORY */
} zvt_answer;

/* Finds the first message in the bytes, or the reason why there is none. */
void zvt_scan(const uint8_t *bytes, size_t length, zvt_answer *answer);

/* Writes the first message as text (ASCII, no final zero), and returns the size of the text. If the room is too small, nothing
 * is written. Returns 0 if the message is incomplete or invalid, or if an allocation failed; the answer says which. */
size_t zvt_text(const uint8_t *bytes, size_t length, uint8_t *room, size_t room_length, zvt_answer *answer);

/* A till. Begin with zvt_till till = {0}; which is closed. zvt_till_new opens it, and zvt_till_free closes it again. */
typedef struct zvt_till {
    void *at;
    uint32_t full; /* 1: open, 0: closed */
} zvt_till;

enum { ZVT_REGISTER = 1, ZVT_PAY, ZVT_REVERSE, ZVT_CLOSE_DAY, ZVT_CANCEL };
/* In `running` of zvt_state: zvt_till_ask is running. It is no order. */
enum { ZVT_ASK = 6 };

enum {
    ZVT_NONE = 0, ZVT_REGISTERED, ZVT_PAID, ZVT_DECLINED, ZVT_ORDER_REFUSED, ZVT_ABORTED, ZVT_UNCLEAR, ZVT_REVERSED,
    ZVT_DAY_CLOSED
};

/* Causes of an unclear payment or reversal: the terminal may have booked it or not. */
enum {
    ZVT_NO_STATUS = 1, ZVT_CONFLICT, ZVT_AMOUNT_DIFFERS, ZVT_NO_TRACE, ZVT_TRACE_USED, ZVT_ABORT_AFTER_APPROVAL,
    ZVT_LINE, ZVT_MALFORMED, ZVT_UNFINISHED, ZVT_WRONG_CURRENCY
};

/* What is in doubt about the reversal of a booked payment. */
enum {
    ZVT_NO_DOUBT = 0,
    /* The last reversal may have succeeded or not; `cause` says why this is unknown. Reverse the payment again once you are
     * connected: the terminal either completes the reversal or answers B4, because it had reversed the payment before. */
    ZVT_UNCLEAR_REVERSAL = 1,
    /* The terminal answered a reversal with B4, because it had reversed the payment before. Nothing is left to do. `reversed`
     * stays 0, and `total` of zvt_state still includes the payment. */
    ZVT_TAKEN_BACK = 2
};

typedef struct zvt_outcome {
    uint32_t kind;        /* ZVT_NONE .. ZVT_DAY_CLOSED */
    uint32_t code;        /* declined, refused, aborted: result code of the terminal; unclear: the cause */
    uint32_t trace;       /* paid: the trace number */
    uint32_t receipt;     /* paid: the two bytes of the receipt number, if has_receipt is 1 */
    uint32_t has_receipt;
} zvt_outcome;

typedef struct zvt_step {
    uint64_t taken;   /* number of bytes consumed from the piece */
    uint64_t send;    /* send the first `send` bytes of `out` to the terminal now */
    uint64_t place;   /* ZVT_REFUSED: index of the refused byte in its message */
    uint64_t line;    /* size of the first line to print; it is in `line`, if it fits there */
    uint32_t reason;  /* ZVT_REFUSED: ZVT_NOT_SHORTEST .. ZVT_LENGTH_DIGIT */
    uint32_t message; /* 1: a message is complete; feed the rest of the piece */
    uint32_t printed; /* 1: the last message has lines to print: print them now (zvt_till_line) */
    zvt_outcome outcome; /* result of the running order, once it has ended */
} zvt_step;

typedef struct zvt_state {
    uint64_t total;   /* sum of the booked payments without a completed reversal */
    uint64_t booked, unclear;
    uint64_t unclear_reversals; /* number of booked payments with ZVT_UNCLEAR_REVERSAL in `doubt` */
    uint64_t settled; /* number of settlements: zvt_till_settled has each */
    uint64_t held;    /* size of the incomplete message that the till holds */
    uint32_t registered;
    uint32_t running; /* 0, ZVT_REGISTER .. ZVT_CLOSE_DAY, or ZVT_ASK */
    zvt_outcome last;
} zvt_state;

typedef struct zvt_entry {
    uint64_t amount;
    /* of an unclear payment: the numbers that the terminal named in it; 0 if it named none, and after zvt_till_load */
    uint32_t trace, receipt, has_receipt;
    uint32_t reversed; /* 1: a reversal of it was completed */
    uint32_t cause;    /* cause of an unclear payment or reversal, else 0 */
    uint32_t doubt;    /* ZVT_NO_DOUBT .. ZVT_TAKEN_BACK; always ZVT_NO_DOUBT for an unclear payment */
} zvt_entry;

/* What the answer to an ask says about an unclear order. */
enum { ZVT_WAS_PAID = 1, ZVT_NOT_PAID, ZVT_WAS_REVERSED, ZVT_NOT_REVERSED };

typedef struct zvt_settlement {
    uint64_t place;   /* index of the unclear payment (zvt_till_unclear); of a reversal: index of its entry (zvt_till_entry) */
    uint32_t kind;    /* ZVT_WAS_PAID .. ZVT_NOT_REVERSED */
    uint32_t trace;   /* ZVT_WAS_PAID: the trace number, else 0 */
    uint32_t receipt; /* ZVT_WAS_PAID: the two bytes of the receipt number, if has_receipt is 1 */
    uint32_t has_receipt;
} zvt_settlement;

/* The kind of a pending order. */
enum { ZVT_NOTHING_PENDING = 0, ZVT_PENDING_PAYMENT, ZVT_PENDING_REVERSAL };

typedef struct zvt_pending {
    uint64_t place;      /* index of the unclear payment, or of the entry whose reversal is unclear */
    uint32_t kind;       /* ZVT_NOTHING_PENDING .. ZVT_PENDING_REVERSAL */
    uint32_t last_known; /* 1: the till knows the terminal's last status. Only then can an order that becomes unclear be
                            settled. Ask after a registration to make it known. */
} zvt_pending;

/* The receipt that a text block (06 D3) belongs to. */
enum { ZVT_NO_COPY = 0, ZVT_MERCHANT = 1, ZVT_CUSTOMER = 2, ZVT_ADMINISTRATION = 3 };

typedef struct zvt_line {
    uint64_t size; /* size of the line, in bytes */
    uint32_t copy; /* type of the receipt: ZVT_MERCHANT .. ZVT_ADMINISTRATION, or another byte that the terminal sent;
                      ZVT_NO_COPY if it named none, and for a print line (06 D1) */
} zvt_line;

/* How zvt_till_line writes a line: the bytes as they were sent, or UTF-8 from this code page. */
enum { ZVT_AS_SENT = 0, ZVT_CP437, ZVT_CP850, ZVT_ISO_8859_1, ZVT_UTF_8 };

/* Size of the buffer `out`. */
#define ZVT_ROOM 32
/* Size of a buffer that holds any line to print, as it was sent. */
#define ZVT_LINE_ROOM 65534

/* Opens a till. The password is a number of up to six digits, the currency a code of ISO 4217 (978 is the euro), and 0xBE is a
 * usual config byte. If the handle has a till, that till is freed first. Unless the call returns ZVT_OK, the handle does not
 * change. */
uint32_t zvt_till_new(zvt_till *till, uint32_t password, uint8_t config, uint16_t currency);
void zvt_till_free(zvt_till *till);
uint32_t zvt_till_connected(zvt_till *till);
uint32_t zvt_till_lost(zvt_till *till, zvt_step *step);
/* Starts an order. `number` is the amount in cents for ZVT_PAY, and the index of the booked payment, from 0, for ZVT_REVERSE.
 * The call sets `send` in the step and clears its other fields. Unless it returns ZVT_OK, it clears them all. */
uint32_t zvt_till_order(zvt_till *till, uint32_t order, uint64_t number, uint8_t *out, size_t out_length, zvt_step *step);
/* Reads up to the end of one message. On ZVT_NO_ROOM, ZVT_CLOSED, ZVT_STOPPED and ZVT_NO_MEMORY the step is cleared. */
uint32_t zvt_till_feed(zvt_till *till, const uint8_t *piece, size_t length, uint8_t *out, size_t out_length, zvt_step *step);
/* Reads all messages of a piece. Stops after a message with lines to print, the first of which it writes to `line`, and when
 * `out` has room for fewer than ZVT_ROOM further bytes; then feed the rest again. Send `step->send` bytes whatever the status is: on ZVT_REFUSED and
 * ZVT_NO_MEMORY, they acknowledge the messages before. On ZVT_NO_ROOM and ZVT_CLOSED the step is cleared. */
uint32_t zvt_till_feed_all(zvt_till *till, const uint8_t *piece, size_t length, uint8_t *out, size_t out_length,
                           uint8_t *line, size_t line_length, zvt_step *step);
/* Writes the line at this index, from 0, of the message that the last feed ended with: a print line has one, and a text block
 * has the lines of its receipt. If the room is too small, nothing is written; `line->size` is the size of the line. With a code page
 * the line is written in UTF-8, in which control characters, and bytes that are no character, are \x and two hexadecimal
 * digits. The status is ZVT_OK, ZVT_NO_MEMORY, ZVT_CLOSED, or ZVT_ARGUMENT if there is no such line; unless it is ZVT_OK,
 * `line` is cleared. */
uint32_t zvt_till_line(zvt_till *till, size_t place, uint32_t codepage, uint8_t *room, size_t room_length, zvt_line *line);

/* Size of a buffer that holds either text of a card. */
#define ZVT_CARD_ROOM 198
/* Write the name (8B) and the number (22) of the card that the terminal named in its last status information about the last
 * order, for your own receipt. The name is as it was sent, up to its first zero byte. Of the number, all but the first six and
 * the last four digits are asterisks, whatever the terminal sent. Each call returns the size of the text; if the room is too
 * small, nothing is written. 0: the terminal named none. An order other than ZVT_CANCEL forgets the card, and so do
 * zvt_till_load and zvt_till_recover. */
size_t zvt_till_card_name(zvt_till *till, uint8_t *room, size_t room_length);
size_t zvt_till_card_number(zvt_till *till, uint8_t *room, size_t room_length);

/* Asks the terminal what became of an unclear order: to repeat its last receipt (06 20). Writes the bytes to send to `out`, as
 * zvt_till_order does. Feed the till the answer; the ask ends without an outcome, once `running` of zvt_state is no longer
 * ZVT_ASK. Then zvt_till_settled has what it settled, if anything. Besides ZVT_OK, the status is ZVT_NO_MEMORY, ZVT_NO_ROOM,
 * ZVT_CLOSED, ZVT_OFFLINE, ZVT_NOT_REGISTERED or ZVT_BUSY; the step is cleared then. While an ask runs, orders are refused with
 * ZVT_BUSY. An answer settles an order only if the terminal serves this till alone, repeats its last transaction, and does not
 * go on with an order whose line broke. Neither the book nor the lists of zvt_till_entry and zvt_till_unclear change. */
uint32_t zvt_till_ask(zvt_till *till, uint8_t *out, size_t out_length, zvt_step *step);
/* The settlement at this index, from 0, in the order of the answers. ZVT_ARGUMENT: there is none. */
uint32_t zvt_till_settled(zvt_till *till, size_t place, zvt_settlement *settlement);
/* The unclear order that the next answer can settle. There is at most one: the last, until the next payment, reversal or end of
 * day. The status is ZVT_OK or ZVT_CLOSED. */
uint32_t zvt_till_pending(zvt_till *till, zvt_pending *pending);

uint32_t zvt_till_state(zvt_till *till, zvt_state *state);
uint32_t zvt_till_entry(zvt_till *till, size_t place, zvt_entry *entry);
uint32_t zvt_till_unclear(zvt_till *till, size_t place, zvt_entry *entry);

/* Saves the till as bytes. You can save at any time. The bytes describe the till as it would be after losing its connection, so
 * a running payment or reversal is unclear in them. Save before you send an order, and after each outcome. The answer has the
 * number of bytes in `size`; if the room is too small, nothing is written. The status is ZVT_OK, ZVT_NO_MEMORY or ZVT_CLOSED. */
void zvt_till_save(zvt_till *till, uint8_t *room, size_t room_length, zvt_answer *answer);
/* Restores a till from saved bytes, including those of the first layout, which had no `doubt`. A save does not contain what was
 * settled or is pending, so the till has neither, and its unclear orders stay unclear. If the handle has a till, that till is
 * freed first. ZVT_REFUSED means that the bytes are truncated, altered, or not a saved till; the handle does not change then. */
uint32_t zvt_till_load(zvt_till *till, const uint8_t *bytes, size_t length);

/* A journal is a file of text records from which the till can be restored; see journal_demo.c. Each of these calls writes the
 * text of one record. Make the record durable before you act on it, as described at each call. If the room is too small,
 * nothing is written. ZVT_RECORD_ROOM bytes hold any record. */
#define ZVT_RECORD_ROOM 131200

/* Writes the first record of a journal. The answer has the size of the text in `size`; its status is ZVT_OK, ZVT_NO_MEMORY or
 * ZVT_ARGUMENT. */
void zvt_record_opening(uint16_t currency, uint8_t *room, size_t room_length, zvt_answer *answer);
/* Records an order that zvt_till_order has accepted, and the bytes to send: make it durable before you send them. The record
 * has the password as 00 00 00. `at` is the time of the order in UTC, such as 2026-11-28T09:14:03Z, and `reference` a number of
 * your own, 1 to 40 printable ASCII characters without a space, that the record keeps; leave either out with the length 0. The
 * answer is as above. ZVT_ARGUMENT: there is no such order, the index of the payment is 10,000 or more, the time or the
 * reference has another form, or there are more than ZVT_ROOM bytes. */
void zvt_record_order(uint32_t order, uint64_t number, const uint8_t *sent, size_t sent_length, const uint8_t *at,
                      size_t at_length, const uint8_t *reference, size_t reference_length, uint8_t *room,
                      size_t room_length, zvt_answer *answer);
/* Records an ask that zvt_till_ask has accepted: make it durable before you send its bytes. The record has the password as
 * 00 00 00. `at` and `reference` are as above. The status is ZVT_OK, ZVT_NO_MEMORY, or ZVT_ARGUMENT if the time or the reference
 * has another form. */
void zvt_record_ask(const uint8_t *at, size_t at_length, const uint8_t *reference, size_t reference_length, uint8_t *room,
                    size_t room_length, zvt_answer *answer);
/* Records the first message in the bytes, and the till's answer to it: make it durable before you feed the till these
 * `answer->size` bytes. Returns the size of the text, or 0 if there is no complete message. The answer is the one of zvt_scan.
 * On ZVT_REFUSED feed nothing, and close the connection (zvt_till_lost). */
size_t zvt_record_heard(const uint8_t *bytes, size_t length, uint8_t *room, size_t room_length, zvt_answer *answer);
/* Records that the previous connection was lost: make it durable before zvt_till_connected. The status is ZVT_OK or
 * ZVT_NO_MEMORY. */
void zvt_record_lost(uint8_t *room, size_t room_length, zvt_answer *answer);

/* Reasons why zvt_till_recover refuses a journal. */
enum { ZVT_WRONG_OPENING = 1, ZVT_WRONG_LINE, ZVT_WRONG_RECORD, ZVT_WRONG_CHECK };

/* Restores the till of a journal into an open handle, with the settings given to zvt_till_new. The till is not connected, and a
 * payment or reversal that was running is unclear. It has what the asks in the journal settled, and what is pending. `text` is
 * the complete lines of the file, up to the first empty one.
 * The status is ZVT_OK, ZVT_NO_MEMORY, ZVT_CLOSED or ZVT_REFUSED; unless it is ZVT_OK, the handle does not change. The reasons
 * for ZVT_REFUSED are:
 *    ZVT_WRONG_OPENING  the first line is not the opening of a journal in this currency, or it names a rule of the till
 *    ZVT_WRONG_LINE     line `place`, from 1, is not a line of a journal
 *    ZVT_WRONG_RECORD   record `place`, from 1 after the opening, cannot follow the records before it
 *    ZVT_WRONG_CHECK    the check in line `place`, from 1, differs from its record: somebody edited the record, or the disk
 *                       damaged it */
void zvt_till_recover(zvt_till *till, const uint8_t *text, size_t length, zvt_answer *answer);

/* Writes the times and references of a journal's payments, one line for each: first those booked by the till that
 * zvt_till_recover makes of this text, in the order of zvt_till_entry, then the unclear ones, in the order of zvt_till_unclear.
 * Such lines are "booked at 2026-11-28T09:14:03Z ref A-1009" and "unclear"; the words after the first are those that
 * zvt_record_order put into the record of the payment's order. The text may also be that of a journal that a till is writing at
 * the moment: its payments come first then. The answer has the size of the lines in `size`; if the room is too small, nothing is
 * written. The handle supplies the settings and does not change. The status is that of zvt_till_recover. */
void zvt_record_notes(zvt_till *till, const uint8_t *text, size_t length, uint8_t *room, size_t room_length, zvt_answer *answer);

/* Names of numbers, as the program `zvt` prints them (ASCII, no final zero). Each call returns the size of the name; if the
 * room is too small, nothing is written. 64 bytes hold any name. 0: the number has no name. */
size_t zvt_reason_name(uint32_t reason, uint8_t *room, size_t room_length);   /* ZVT_NOT_SHORTEST .. ZVT_LENGTH_DIGIT */
size_t zvt_cause_name(uint32_t cause, uint8_t *room, size_t room_length);     /* ZVT_NO_STATUS .. ZVT_WRONG_CURRENCY */
size_t zvt_outcome_name(uint32_t kind, uint8_t *room, size_t room_length);    /* ZVT_REGISTERED .. ZVT_DAY_CLOSED */
size_t zvt_refusal_name(uint32_t status, uint8_t *room, size_t room_length);  /* ZVT_OFFLINE .. ZVT_NO_RECEIPT, ZVT_NO_MEMORY */
/* Meaning of a result code of the terminal, which outcomes have in `code`: 6F is "wrong currency". 0: it has no meaning. */
size_t zvt_result_name(uint32_t code, uint8_t *room, size_t room_length);
/* Words of an intermediate status, which says what the terminal waits for or does: 0A is "insert the card". 0: it has no words. */
size_t zvt_status_name(uint32_t status, uint8_t *room, size_t room_length);

#ifdef __cplusplus
}
#endif
#endif
