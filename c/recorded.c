/* The texts of a journal's records, written out here after docs/FORMAT.md; and the till that is made of them: of all, of each
 * beginning, with each allocation failing, and of texts that are no journal of its own. Linked with malloc, realloc and free
 * wrapped: c/check does it. */
#include "zvt.h"
#include <stdio.h>
#include <stdlib.h>
#include <string.h>
static long left = -1, live = 0;
void *__real_malloc(size_t n); void *__real_realloc(void *p, size_t n); void __real_free(void *p);
static int fails(void) { if (left < 0) return 0; if (left == 0) return 1; left--; return 0; }
void *__wrap_malloc(size_t n) { if (fails()) return 0; live++; return __real_malloc(n); }
void *__wrap_realloc(void *p, size_t n) { if (fails()) return 0; if (!p) live++; return __real_realloc(p, n); }
void __wrap_free(void *p) { if (p) live--; __real_free(p); }

static uint8_t room[ZVT_RECORD_ROOM];
static char journal[4096];
static int wants = 0;
/* Whether the record is this text, which is added to the journal; with less room nothing is written. */
static int is(size_t size, const char *text) {
    if (size != strlen(text) || memcmp(room, text, size)) { printf("not: %s", text); return 0; }
    strcat(journal, text);
    return 1;
}
/* The time and the reference of the orders below. */
static const char *at = "", *reference = "";
static void write_order(uint32_t kind, uint64_t number, const uint8_t *sent, size_t length, size_t size, zvt_answer *a) {
    zvt_record_order(kind, number, sent, length, (const uint8_t *)at, strlen(at), (const uint8_t *)reference, strlen(reference), room, size, a);
}
/* The record of an order: written with each allocation failing, and with a byte of room too few, before it is. */
static size_t order(uint32_t kind, uint64_t number, const uint8_t *sent, size_t length) {
    zvt_answer a;
    for (long fail = 0; fail < 9; fail++) {
        left = fail; memset(room, 0xEE, 200);
        write_order(kind, number, sent, length, sizeof room, &a);
        left = -1;
        if (a.status == ZVT_NO_MEMORY && a.size == 0 && room[0] == 0xEE) wants++; else if (a.status) return 0;
    }
    size_t size = a.size;
    memset(room, 0xEE, 200);
    write_order(kind, number, sent, length, size - 1, &a);
    if (a.status || a.size != size || room[0] != 0xEE) return 0;
    write_order(kind, number, sent, length, size, &a);
    return a.status || room[size] != 0xEE ? 0 : size;
}
/* The record of the message that stands first, of this size. */
static size_t heard(const uint8_t *bytes, size_t length, size_t message) {
    zvt_answer a;
    size_t size = 0;
    for (long fail = 0; fail < 20; fail++) {
        left = fail; memset(room, 0xEE, 200);
        size = zvt_record_heard(bytes, length, room, sizeof room, &a);
        left = -1;
        if (a.status == ZVT_NO_MEMORY && size == 0 && room[0] == 0xEE) wants++; else if (a.status != ZVT_WHOLE || a.size != message) return 0;
    }
    memset(room, 0xEE, 200);
    if (zvt_record_heard(bytes, length, room, size - 1, &a) != size || room[0] != 0xEE) return 0;
    return zvt_record_heard(bytes, length, room, size, &a);
}
static uint32_t refused_order(uint32_t kind, uint64_t number, size_t length) {
    zvt_answer a;
    uint8_t sent[64] = {0};
    room[0] = 0xEE;
    write_order(kind, number, sent, length, sizeof room, &a);
    return a.size || a.place || a.reason || room[0] != 0xEE ? 99 : a.status;
}
static int is_state(zvt_till *t, size_t booked, size_t unclear, uint64_t total) {
    zvt_state s;
    return zvt_till_state(t, &s) == 0 && s.booked == booked && s.unclear == unclear && s.total == total && !s.running && !s.registered && !s.held;
}
/* Whether the text is no journal for this reason and at this place, and the till stays one of a booked payment. */
static int wrong(zvt_till *t, const char *text, uint32_t reason, size_t place) {
    zvt_answer a;
    zvt_till_recover(t, (const uint8_t *)text, strlen(text), &a);
    if (a.status != ZVT_REFUSED || a.reason != reason || a.place != place || a.size) { printf("%u %u at %lu: %s\n", a.status, a.reason, (unsigned long)a.place, text); return 0; }
    return is_state(t, 1, 1, 1234);
}
int main(void) {
    const uint8_t registration[] = {0x06, 0x00, 6, 0x12, 0x34, 0x56, 0xBE, 0x09, 0x78};
    const uint8_t payment[] = {0x06, 0x01, 10, 0x04, 0, 0, 0, 0, 0x12, 0x34, 0x49, 0x09, 0x78};
    const uint8_t reversal[] = {0x06, 0x30, 6, 0x12, 0x34, 0x56, 0x87, 0x00, 0x05}, end_of_day[] = {0x06, 0x50, 3, 0x12, 0x34, 0x56};
    const uint8_t cancel[] = {0x06, 0xB0, 0};
    const uint8_t ack[] = {0x80, 0, 0, 0x04}, done[] = {0x06, 0x0F, 0, 0x80}, strange[] = {0x05, 0x01, 1, 7}, bad[] = {0x06, 0x01, 2, 0xD0};
    const uint8_t approved[] = {0x04, 0x0F, 0x10, 0x27, 0, 4, 0, 0, 0, 0, 0x12, 0x34, 0x0B, 0, 0, 0x17, 0x87, 0, 5, 0xFF};
    const uint8_t other_approved[] = {0x04, 0x0F, 0x10, 0x27, 0, 4, 0x99, 0x99, 0x99, 0x99, 0x99, 0x99, 0x0B, 0, 0, 0x19, 0x87, 0, 7};
    const uint8_t taken_back[] = {0x04, 0x0F, 0x11, 0x27, 0, 4, 0, 0, 0, 0, 0x12, 0x34, 0x0B, 0, 0, 0x18, 0x37, 0, 0, 0x17};
    zvt_till t = {0}, other = {0};
    zvt_answer a;
    zvt_state s;
    zvt_entry e;
    zvt_record_opening(978, room, sizeof room, &a);
    if (a.status || !is(a.size, "# zvt journal 1, currency 978\n")) return 1;
    zvt_record_opening(10000, room, sizeof room, &a);
    if (a.status != ZVT_ARGUMENT || a.size) return 2;
    room[0] = 0xEE;
    zvt_record_opening(0, room, 4, &a);
    if (a.status || a.size != strlen("# zvt journal 1, currency 0\n") || room[0] != 0xEE) return 3;
    zvt_record_lost(room, sizeof room, &a);
    if (a.status || !is(a.size, "!\n#= 7DDCFDA1\n")) return 4;
    if (!is(order(ZVT_REGISTER, 0, registration, 9), "# register\n> 060006000000BE0978\n#= BBBD54AC\n")) return 5;
    if (!is(heard(ack, 3, 3), "< 800000\n#= 9A61F70B\n") || !is(heard(done, 4, 3), "< 060F00\n> 800000\n#= 07264E21\n")) return 6;
    if (!is(order(ZVT_PAY, 1234, payment, 13), "# pay 1234\n> 06010A04000000001234490978\n#= A2BDB53A\n")) return 7;
    if (!is(heard(ack, 4, 3), "< 800000\n#= 9A61F70B\n") || !is(heard(strange, 4, 4), "< 05010107\n> 848300\n#= 3CFFF074\n")) return 8;
    if (!is(heard(approved, 20, 19), "< 040F1027000400000000" "12340B000017870005\n> 800000\n#= 22FB2581\n") || !is(heard(done, 3, 3), "< 060F00\n> 800000\n#= 07264E21\n")) return 9;
    reference = "~xxxxxxxxxxxxxxxxxxxxxxxxxxxxxxxxxxxxxx!"; /* the longest */
    if (!is(order(ZVT_REVERSE, 0, reversal, 9), "# reverse 1 ref ~xxxxxxxxxxxxxxxxxxxxxxxxxxxxxxxxxxxxxx!\n> 063006000000870005\n#= E01AC284\n")) return 10;
    reference = "";
    if (!is(heard(ack, 3, 3), "< 800000\n#= 9A61F70B\n") || !is(heard(taken_back, 20, 20), "< 040F11270004000000001234" "0B00001837000017\n> 800000\n#= 728A8674\n") || !is(heard(done, 3, 3), "< 060F00\n> 800000\n#= 07264E21\n")) return 11;
    if (!is(order(ZVT_CLOSE_DAY, 0, end_of_day, 6), "# close\n> 065003000000\n#= 28C1D3E3\n") || !is(heard(ack, 3, 3), "< 800000\n#= 9A61F70B\n") || !is(heard(done, 3, 3), "< 060F00\n> 800000\n#= 07264E21\n")) return 12;
    at = "2026-11-28T09:14:03Z", reference = "A-1009";
    if (!is(order(ZVT_PAY, 999999999999, payment, 13), "# pay 999999999999 at 2026-11-28T09:14:03Z ref A-1009\n> 06010A04000000001234490978\n#= 85D4A83F\n") || !is(heard(ack, 3, 3), "< 800000\n#= 9A61F70B\n")) return 13;
    if (!is(heard(other_approved, 19, 19), "< 040F1027000499999999" "99990B000019870007\n> 800000\n#= EB6B4477\n")) return 13;
    at = reference = "";
    if (!is(order(ZVT_CANCEL, 0, cancel, 3), "# cancel\n> 06B000\n#= 2BE4F364\n")) return 14;
    at = "2026-11-28 09:14:03";
    if (refused_order(ZVT_REGISTER, 0, 9) != ZVT_ARGUMENT) return 19;
    at = "";
    for (int wrong = 0; wrong < 3; wrong++) {
        reference = wrong == 0 ? "two words" : wrong == 1 ? "\xC3\xA9" : "~xxxxxxxxxxxxxxxxxxxxxxxxxxxxxxxxxxxxxxx!";
        if (refused_order(ZVT_PAY, 1, 13) != ZVT_ARGUMENT) return 19;
    }
    reference = "";
    if (refused_order(0, 0, 3) != ZVT_ARGUMENT || refused_order(6, 0, 3) != ZVT_ARGUMENT || refused_order(ZVT_PAY, 0, 3) != ZVT_ARGUMENT) return 15;
    if (refused_order(ZVT_PAY, 1000000000000, 3) != ZVT_ARGUMENT || refused_order(ZVT_REVERSE, 10000, 9) != ZVT_ARGUMENT || refused_order(ZVT_PAY, 1, ZVT_ROOM + 1) != ZVT_ARGUMENT) return 16;
    if (zvt_record_heard(ack, 2, room, sizeof room, &a) || a.status != ZVT_MORE || a.size) return 17;
    if (zvt_record_heard(bad, 4, room, sizeof room, &a) || a.status != ZVT_REFUSED || a.place != 3 || a.reason != ZVT_UNKNOWN_FIELD) return 18;
    /* the till of all of it: the payment is taken back, the other one is unclear */
    size_t length = strlen(journal);
    zvt_till_recover(&t, (const uint8_t *)journal, length, &a);
    if (a.status != ZVT_CLOSED) return 20;
    if (zvt_till_new(&t, 123456, 0xBE, 978)) return 21;
    for (long fail = 0; fail < 400; fail++) {
        left = fail; zvt_till_recover(&t, (const uint8_t *)journal, length, &a); left = -1;
        if (a.status == ZVT_OK) break;
        if (a.status != ZVT_NO_MEMORY || !is_state(&t, 0, 0, 0)) return 22;
        wants++;
    }
    if (a.status || a.size || a.place || a.reason || !is_state(&t, 1, 1, 0)) return 23;
    if (zvt_till_entry(&t, 0, &e) || e.amount != 1234 || e.trace != 17 || e.receipt != 5 || !e.reversed || e.doubt) return 24;
    if (zvt_till_unclear(&t, 0, &e) || e.amount != 999999999999 || e.cause != ZVT_LINE || e.trace != 19 || e.receipt != 7 || !e.has_receipt) return 25;
    /* the times and references of its payments: with each allocation failing, and with a byte of room too few, before they are */
    const char *notes = "booked\nunclear at 2026-11-28T09:14:03Z ref A-1009\n";
    for (long fail = 0; fail < 400; fail++) {
        room[0] = 0xEE; left = fail;
        zvt_record_notes(&t, (const uint8_t *)journal, length, room, sizeof room, &a);
        left = -1;
        if (a.status == ZVT_OK) break;
        if (a.status != ZVT_NO_MEMORY || a.size || room[0] != 0xEE) return 28;
        wants++;
    }
    if (a.status || a.size != strlen(notes) || memcmp(room, notes, a.size)) return 28;
    room[0] = 0xEE;
    zvt_record_notes(&t, (const uint8_t *)journal, length, room, strlen(notes) - 1, &a);
    if (a.status || a.size != strlen(notes) || room[0] != 0xEE) return 28;
    zvt_record_notes(&t, (const uint8_t *)journal, length - 2, room, sizeof room, &a);
    if (a.status != ZVT_REFUSED || a.reason != ZVT_WRONG_CHECK || a.size || room[0] != 0xEE) return 28;
    zvt_record_notes(&other, (const uint8_t *)journal, length, room, sizeof room, &a);
    if (a.status != ZVT_CLOSED || a.size || room[0] != 0xEE || !is_state(&t, 1, 1, 0)) return 29;
    /* it has the password of its settings, which no record has */
    zvt_step step; uint8_t out[ZVT_ROOM];
    if (zvt_till_order(&t, ZVT_REGISTER, 0, out, sizeof out, &step) != ZVT_OFFLINE || zvt_till_connected(&t)) return 26;
    if (zvt_till_order(&t, ZVT_REGISTER, 0, out, sizeof out, &step) || step.send != 9 || memcmp(out, registration, 9)) return 27;
    /* each beginning: whole lines make a till, and a line that was cut is named, or its record */
    size_t lines = 1, records = 0, taken = 0, refused = 0;
    const char *line = strchr(journal, '\n') + 1;
    for (size_t n = line - journal; n < length; n++) {
        zvt_till_recover(&t, (const uint8_t *)journal, n, &a);
        if (journal[n - 1] == '\n' && a.status) return 30;
        if (a.status == ZVT_OK) taken++;
        else if (a.status == ZVT_REFUSED && a.place == (a.reason == ZVT_WRONG_RECORD ? records : lines) + 1) refused++;
        else return 31;
        if (journal[n] == '\n') lines++;
        if (journal[n] == '\n' && line[0] != '>' && line[1] != '=') records++;
        if (journal[n] == '\n') line = journal + n + 1;
    }
    /* texts that are no journal of this till */
    if (zvt_till_new(&t, 0, 0xBE, 978)) return 40;
    char text[8192];
    const char *pays = strstr(journal, "# reverse");
    snprintf(text, sizeof text, "%.*s# pay 500\n", (int)(pays - journal), journal);
    zvt_till_recover(&t, (const uint8_t *)text, strlen(text), &a);
    if (a.status || !is_state(&t, 1, 1, 1234)) return 41;
    if (!wrong(&t, "# zvt journal 1, currency 978, reversals by receipt\n", ZVT_WRONG_OPENING, 1)) return 54;
    if (!wrong(&t, "", ZVT_WRONG_OPENING, 1) || !wrong(&t, "# zvt journal 1, currency 97\n", ZVT_WRONG_OPENING, 1) || !wrong(&t, "!\n", ZVT_WRONG_OPENING, 1)) return 42;
    if (!wrong(&t, "# zvt journal 1, currency 978\n!\n\n!\n", ZVT_WRONG_LINE, 3) || !wrong(&t, "# zvt journal 1, currency 978\n!\n> 8G\n", ZVT_WRONG_LINE, 3)) return 43;
    if (!wrong(&t, "# zvt journal 1, currency 978\n!\n# pay 1\n", ZVT_WRONG_RECORD, 2) || !wrong(&t, "# zvt journal 1, currency 978\n< 8000\n", ZVT_WRONG_RECORD, 1)) return 44;
    if (zvt_till_new(&other, 0, 0xBE, 756)) return 45;
    zvt_till_recover(&other, (const uint8_t *)journal, length, &a);
    if (a.status != ZVT_REFUSED || a.reason != ZVT_WRONG_OPENING || zvt_till_state(&other, &s) || s.booked) return 46;
    /* a changed digit is found by the check of its record, whose line is named */
    if (zvt_till_new(&other, 0, 0xBE, 978)) return 50;
    memcpy(text, journal, length);
    text[strstr(journal, "1234") - journal] = '2';
    zvt_till_recover(&other, (const uint8_t *)text, length, &a);
    if (a.status != ZVT_REFUSED || a.reason != ZVT_WRONG_CHECK || !a.place || !is_state(&other, 0, 0, 0)) return 53;
    /* without checks altered bytes make a till or name a place in the text; a till that is refused changes nothing */
    char plain[8192];
    size_t size = 0;
    for (const char *at = journal; *at; at = strchr(at, '\n') + 1) {
        size_t whole = strchr(at, '\n') + 1 - at;
        if (at[0] != '#' || at[1] != '=') { memcpy(plain + size, at, whole); size += whole; }
    }
    unsigned seed = 1;
    long made = 0;
    for (int i = 0; i < 5000; i++) {
        memcpy(text, plain, size);
        for (int k = 0; k < 2; k++) text[30 + rand_r(&seed) % (size - 30)] = "\n#<>! 0189ABCDEFpayreversecloseregister"[rand_r(&seed) % 39];
        if (zvt_till_new(&other, 0, 0xBE, 978)) return 50;
        zvt_till_recover(&other, (const uint8_t *)text, size, &a);
        if (a.status == ZVT_OK) made++;
        else if (a.status != ZVT_REFUSED || a.reason < ZVT_WRONG_LINE || a.reason > ZVT_WRONG_CHECK || !a.place || a.place > 40 || !is_state(&other, 0, 0, 0)) return 51;
    }
    if (made < 20 || made > 4900) return 52;
    zvt_till_free(&t); zvt_till_free(&other);
    if (live) { printf("leak %ld\n", live); return 47; }
    printf("records: %zu beginnings make a till, %zu name what was cut, %ld of 5000 altered texts make one, %d refused allocations met\n", taken, refused, made, wants);
    return 0;
}
