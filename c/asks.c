/* Payments and reversals whose connection breaks, and what the answer to an ask says about them. With each allocation failing,
 * at each cutting of the terminal's bytes, and from the records of a journal. Linked with malloc, realloc and free wrapped:
 * c/check does it. */
#include "wrapped.h"
#include "zvt.h"
#include <string.h>

#define ACK 0x80, 0, 0
#define DONE 6, 0x0F, 0
#define APPROVAL(hundreds, number) 4, 0x0F, 16, 0x27, 0, 4, 0, 0, 0, 0, hundreds, 0, 0x0B, 0, 0, number, 0x87, 0, number

static const uint8_t registered[] = {ACK, DONE};
static const uint8_t first[] = {ACK, APPROVAL(0x10, 1), DONE};      /* 10.00 under the trace number 1 */
static const uint8_t second[] = {ACK, APPROVAL(0x05, 2), DONE};     /* 5.00 under 2 */
static const uint8_t other[] = {ACK, APPROVAL(0x07, 2), DONE};      /* another amount */
static const uint8_t reversed[] = {ACK, 4, 0x0F, 20, 0x27, 0, 4, 0, 0, 0, 0, 0x10, 0, 0x0B, 0, 0, 2, 0x87, 0, 2, 0x37, 0, 0, 1, DONE};
static const uint8_t refused[] = {0x84, 0x83, 0}, aborted[] = {ACK, 6, 0x1E, 1, 0x83};
static const uint8_t message[] = {6, 0x20, 3, 0x12, 0x34, 0x56};

static char journal[4096];

/* Adds a record to the journal. */
static void keep(const uint8_t *record, size_t size) {
    size_t length = strlen(journal);
    CHECK(length + size < sizeof journal);
    memcpy(journal + length, record, size);
    journal[length + size] = 0;
}

static void record_order(uint32_t kind, uint64_t number, const uint8_t *sent, size_t length) {
    static uint8_t record[ZVT_RECORD_ROOM];
    zvt_answer answer;
    zvt_record_order(kind, number, sent, length, 0, 0, 0, 0, record, sizeof record, &answer);
    CHECK(answer.status == ZVT_OK);
    keep(record, answer.size);
}

static void record_ask(void) {
    static uint8_t record[ZVT_RECORD_ROOM];
    const uint8_t *at = (const uint8_t *)"2026-11-28T09:14:03Z";
    zvt_answer answer;
    const char *text = "# ask at 2026-11-28T09:14:03Z ref A-1\n> 062003000000\n";
    for (long fail = 0;; fail++) {
        memset(record, 0xEE, 200);
        left = fail;
        zvt_record_ask(at, 20, (const uint8_t *)"A-1", 3, record, sizeof record, &answer);
        left = -1;
        if (answer.status == ZVT_OK) break;
        CHECK(answer.status == ZVT_NO_MEMORY && answer.size == 0 && record[0] == 0xEE);
    }
    CHECK(answer.size == strlen(text) + strlen("#= 00000000\n") && !memcmp(record, text, strlen(text)));
    keep(record, answer.size);
    memset(record, 0xEE, 200);
    zvt_record_ask(at, 20, (const uint8_t *)"A-1", 3, record, answer.size - 1, &answer);
    CHECK(answer.status == ZVT_OK && record[0] == 0xEE);
    zvt_record_ask(at, 19, 0, 0, record, sizeof record, &answer);
    CHECK(answer.status == ZVT_ARGUMENT && answer.size == 0 && record[0] == 0xEE);
    zvt_record_ask(0, 0, (const uint8_t *)"A 1", 3, record, sizeof record, &answer);
    CHECK(answer.status == ZVT_ARGUMENT && answer.size == 0 && record[0] == 0xEE);
}

/* Feeds messages one by one, each once it is in the journal, and each in two pieces. Returns the last outcome. */
static zvt_outcome feed(zvt_till *till, const uint8_t *bytes, size_t length) {
    static uint8_t record[ZVT_RECORD_ROOM];
    uint8_t out[ZVT_ROOM];
    zvt_outcome outcome = {0};
    while (length) {
        zvt_answer answer;
        zvt_step step;
        keep(record, zvt_record_heard(bytes, length, record, sizeof record, &answer));
        CHECK(answer.status == ZVT_WHOLE);
        CHECK(zvt_till_feed(till, bytes, 1, out, sizeof out, &step) == ZVT_OK && !step.message);
        CHECK(zvt_till_feed(till, bytes + 1, answer.size - 1, out, sizeof out, &step) == ZVT_OK && step.message);
        if (step.outcome.kind) outcome = step.outcome;
        bytes += answer.size, length -= answer.size;
    }
    return outcome;
}

static void order(zvt_till *till, uint32_t kind, uint64_t number) {
    uint8_t out[ZVT_ROOM];
    zvt_step step;
    CHECK(zvt_till_order(till, kind, number, out, sizeof out, &step) == ZVT_OK);
    record_order(kind, number, out, step.send);
}

static void connects(zvt_till *till) {
    uint8_t record[64];
    zvt_answer answer;
    zvt_record_lost(record, sizeof record, &answer);
    keep(record, answer.size);
    CHECK(zvt_till_connected(till) == ZVT_OK);
    order(till, ZVT_REGISTER, 0);
    CHECK(feed(till, registered, sizeof registered).kind == ZVT_REGISTERED);
}

/* The till loses its line. */
static uint32_t loses(zvt_till *till) {
    zvt_step step;
    CHECK(zvt_till_lost(till, &step) == ZVT_OK);
    return step.outcome.kind;
}

static int is_pending(zvt_till *till, uint32_t kind, uint64_t place, uint32_t last_known) {
    zvt_pending pending;
    return zvt_till_pending(till, &pending) == ZVT_OK && pending.kind == kind && pending.place == place && pending.last_known == last_known;
}

/* Whether there are this many settlements, and the last one is this. */
static int has_settled(zvt_till *till, uint64_t count, zvt_settlement wanted) {
    zvt_state state;
    zvt_settlement settlement, none;
    memset(&none, 0xEE, sizeof none);
    if (zvt_till_state(till, &state) || state.settled != count || zvt_till_settled(till, count, &none) != ZVT_ARGUMENT || none.kind != 0xEEEEEEEE) return 0;
    return !count || (zvt_till_settled(till, count - 1, &settlement) == ZVT_OK && !memcmp(&settlement, &wanted, sizeof wanted));
}

/* Whether a till that is recovered from the journal, with each allocation failing, has settled the same and waits for the same. */
static int is_recovered(zvt_till *till) {
    zvt_till again = {0};
    zvt_state state, wanted;
    zvt_pending pending, awaited;
    zvt_answer answer;
    int same = zvt_till_new(&again, 123456, 0xBE, 978) == ZVT_OK;
    for (long fail = 0; same; fail++) {
        left = fail;
        zvt_till_recover(&again, (const uint8_t *)journal, strlen(journal), &answer);
        left = -1;
        if (answer.status == ZVT_OK) break;
        same = answer.status == ZVT_NO_MEMORY && zvt_till_state(&again, &state) == ZVT_OK && state.settled == 0 && state.booked == 0;
    }
    same = same && !zvt_till_state(&again, &state) && !zvt_till_state(till, &wanted) && state.settled == wanted.settled && state.total == wanted.total && !state.running
        && !zvt_till_pending(&again, &pending) && !zvt_till_pending(till, &awaited) && !memcmp(&pending, &awaited, sizeof pending);
    for (uint64_t place = 0; same && place < wanted.settled; place++) {
        zvt_settlement one, two;
        same = !zvt_till_settled(&again, place, &one) && !zvt_till_settled(till, place, &two) && !memcmp(&one, &two, sizeof one);
    }
    zvt_till_free(&again);
    return same;
}

/* Asks, with each allocation failing before, and feeds the answer. */
static void ask(zvt_till *till, const uint8_t *answer, size_t length) {
    uint8_t out[ZVT_ROOM];
    zvt_step step;
    zvt_state state;
    memset(out, 0xEE, sizeof out);
    CHECK(zvt_till_ask(till, out, ZVT_ROOM - 1, &step) == ZVT_NO_ROOM && step.send == 0 && out[0] == 0xEE);
    for (long fail = 0;; fail++) {
        left = fail;
        uint32_t status = zvt_till_ask(till, out, sizeof out, &step);
        left = -1;
        if (status == ZVT_OK) break;
        CHECK(status == ZVT_NO_MEMORY && step.send == 0 && out[0] == 0xEE);
    }
    CHECK(step.send == sizeof message && !memcmp(out, message, sizeof message) && out[sizeof message] == 0xEE && !step.outcome.kind);
    record_ask();
    CHECK(zvt_till_state(till, &state) == ZVT_OK && state.running == ZVT_ASK);
    CHECK(zvt_till_ask(till, out, sizeof out, &step) == ZVT_BUSY && step.send == 0);
    for (uint32_t kind = ZVT_REGISTER; kind <= ZVT_CANCEL; kind++) CHECK(zvt_till_order(till, kind, 1, out, sizeof out, &step) == ZVT_BUSY);
    CHECK(feed(till, answer, length).kind == ZVT_NONE);
    CHECK(zvt_till_state(till, &state) == ZVT_OK && state.running == ZVT_NONE);
}

/* A till that paid 10.00 under 1, and whose next order breaks once that many bytes of the answer arrived. */
static void breaks(zvt_till *till, uint32_t kind, uint64_t number, const uint8_t *answer, size_t length) {
    journal[0] = 0;
    uint8_t record[64];
    zvt_answer opening;
    zvt_record_opening(978, record, sizeof record, &opening);
    keep(record, opening.size);
    CHECK(zvt_till_new(till, 123456, 0xBE, 978) == ZVT_OK);
    CHECK(is_pending(till, ZVT_NOTHING_PENDING, 0, 0) && has_settled(till, 0, (zvt_settlement){0}));
    connects(till);
    CHECK(is_pending(till, ZVT_NOTHING_PENDING, 0, 0));
    order(till, ZVT_PAY, 1000);
    CHECK(feed(till, first, sizeof first).kind == ZVT_PAID);
    CHECK(is_pending(till, ZVT_NOTHING_PENDING, 0, 1));
    order(till, kind, number);
    feed(till, answer, length);
    CHECK(loses(till) == ZVT_UNCLEAR);
    CHECK(is_pending(till, kind == ZVT_PAY ? ZVT_PENDING_PAYMENT : ZVT_PENDING_REVERSAL, 0, 0) && is_recovered(till));
}

int main(void) {
    const zvt_settlement paid = {0, ZVT_WAS_PAID, 2, 2, 1}, not_paid = {0, ZVT_NOT_PAID, 0, 0, 0};
    const zvt_settlement was_reversed = {0, ZVT_WAS_REVERSED, 0, 0, 0}, not_reversed = {0, ZVT_NOT_REVERSED, 0, 0, 0};
    const size_t heard[] = {0, 3, 3 + 19}; /* nothing, the acknowledgement, the status */
    const struct { uint32_t kind; uint64_t number; const uint8_t *cut, *answer; size_t length; zvt_settlement wanted; } cases[] = {
        {ZVT_PAY, 500, second, second, sizeof second, paid}, {ZVT_PAY, 500, second, first, sizeof first, not_paid},
        {ZVT_REVERSE, 0, reversed, reversed, sizeof reversed, was_reversed}, {ZVT_REVERSE, 0, reversed, first, sizeof first, not_reversed}};
    zvt_till till = {0}, loaded = {0};
    zvt_step step;
    zvt_pending pending;
    zvt_settlement settlement;
    zvt_answer answer;
    uint8_t out[ZVT_ROOM], saved[512];
    CHECK(zvt_till_ask(&till, out, sizeof out, &step) == ZVT_CLOSED && zvt_till_settled(&till, 0, &settlement) == ZVT_CLOSED && zvt_till_pending(&till, &pending) == ZVT_CLOSED);
    CHECK(zvt_till_new(&till, 123456, 0xBE, 978) == ZVT_OK && zvt_till_ask(&till, out, sizeof out, &step) == ZVT_OFFLINE);
    CHECK(zvt_till_connected(&till) == ZVT_OK && zvt_till_ask(&till, out, sizeof out, &step) == ZVT_NOT_REGISTERED);
    for (size_t which = 0; which < sizeof cases / sizeof *cases; which++)
        for (size_t at = 0; at < (cases[which].kind == ZVT_PAY ? 3 : 2); at++) {
            breaks(&till, cases[which].kind, cases[which].number, cases[which].cut, heard[at]);
            connects(&till);
            CHECK(is_pending(&till, cases[which].kind == ZVT_PAY ? ZVT_PENDING_PAYMENT : ZVT_PENDING_REVERSAL, 0, 0));
            /* a refusal and an abort settle nothing */
            ask(&till, refused, sizeof refused);
            ask(&till, aborted, sizeof aborted);
            CHECK(has_settled(&till, 0, (zvt_settlement){0}) && is_recovered(&till));
            /* nor does a line that is lost */
            CHECK(zvt_till_ask(&till, out, sizeof out, &step) == ZVT_OK);
            record_ask();
            CHECK(loses(&till) == ZVT_NONE);
            connects(&till);
            ask(&till, cases[which].answer, cases[which].length);
            CHECK(has_settled(&till, 1, cases[which].wanted) && is_pending(&till, ZVT_NOTHING_PENDING, 0, 1) && is_recovered(&till));
            /* the same answer again settles nothing more */
            ask(&till, cases[which].answer, cases[which].length);
            CHECK(has_settled(&till, 1, cases[which].wanted) && is_recovered(&till));
            /* a save does not contain it */
            zvt_till_save(&till, saved, sizeof saved, &answer);
            CHECK(answer.status == ZVT_OK && zvt_till_load(&loaded, saved, answer.size) == ZVT_OK);
            CHECK(has_settled(&loaded, 0, (zvt_settlement){0}) && is_pending(&loaded, ZVT_NOTHING_PENDING, 0, 0));
        }
    /* another amount leaves the payment unclear for good */
    breaks(&till, ZVT_PAY, 500, second, 0);
    connects(&till);
    ask(&till, other, sizeof other);
    CHECK(has_settled(&till, 0, (zvt_settlement){0}) && is_pending(&till, ZVT_NOTHING_PENDING, 0, 1) && is_recovered(&till));
    /* and so does a payment in between */
    breaks(&till, ZVT_PAY, 500, second, 0);
    connects(&till);
    order(&till, ZVT_PAY, 1);
    CHECK(is_pending(&till, ZVT_NOTHING_PENDING, 0, 0));
    feed(&till, aborted, sizeof aborted);
    ask(&till, second, sizeof second);
    CHECK(has_settled(&till, 0, (zvt_settlement){0}) && is_recovered(&till));
    zvt_till_free(&till);
    zvt_till_free(&loaded);
    CHECK(live == 0);
    printf("asks: %ld failed allocations\n", failed);
    return 0;
}
