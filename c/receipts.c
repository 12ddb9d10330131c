/* The lines that a terminal wants printed, in print lines and text blocks, in each code page; and the card of an order. At each
 * cutting of the terminal's bytes, with each allocation failing, and with too little room. Linked with malloc, realloc and free
 * wrapped: c/check does it. */
#include "wrapped.h"
#include "zvt.h"
#include <string.h>

static const uint8_t registered[] = {0x80, 0, 0, 6, 0x0F, 0};
/* A print line, two text blocks, an empty one, a status with a card, and the end. */
static const uint8_t paid[] = {0x80, 0, 0, 6, 0xD1, 3, 0, 'H', 0x84,
    6, 0xD3, 15, 6, 13, 0x1F, 7, 1, 2, 0x25, 7, 7, 1, '1', 7, 2, 0x81, '2',
    6, 0xD3, 8, 6, 6, 0x25, 4, 7, 2, 0xC3, 0xA4,
    6, 0xD3, 4, 6, 2, 0x25, 0,
    4, 0x0F, 39, 0x27, 0, 4, 0, 0, 0, 0, 0x12, 0x34, 0x0B, 0, 0, 0x17, 0x87, 0, 5,
    0x22, 0xF0, 0xF8, 0x67, 0x26, 0x12, 0x34, 0x56, 0x78, 0x12, 0x34, 0x8B, 0xF0, 0xF9, 'g', 'i', 'r', 'o', 'c', 'a', 'r', 'd', 0,
    6, 0x0F, 0};
static const char *const wanted[][5] = { /* in each code page */
    {"H\x84", "1", "\x81""2", "\xC3\xA4"}, {"Hä", "1", "ü2", "├ñ"}, {"Hä", "1", "ü2", "├ñ"},
    {"H\\x84", "1", "\\x81""2", "Ã¤"}, {"H\\x84", "1", "\\x81""2", "ä"}};
static const uint32_t copies[] = {ZVT_NO_COPY, ZVT_CUSTOMER, ZVT_CUSTOMER, ZVT_NO_COPY};

static int is(size_t size, const uint8_t *room, const char *text) { return size == strlen(text) && !memcmp(room, text, size); }

/* Reads the lines of the last message. Returns the number of all so far. */
static size_t lines(zvt_till *till, uint32_t codepage, size_t so_far) {
    uint8_t room[64];
    zvt_line line;
    for (size_t place = 0;; place++, so_far++) {
        uint32_t status = ZVT_NO_MEMORY;
        for (long fail = 0; status == ZVT_NO_MEMORY; fail++) {
            memset(room, 0xEE, sizeof room);
            left = fail;
            status = zvt_till_line(till, place, codepage, room, sizeof room, &line);
            left = -1;
            CHECK(status != ZVT_NO_MEMORY || (codepage != ZVT_AS_SENT && line.size == 0 && line.copy == 0 && room[0] == 0xEE));
        }
        if (status == ZVT_ARGUMENT) {
            CHECK(line.size == 0 && line.copy == 0 && room[0] == 0xEE);
            return so_far;
        }
        CHECK(status == ZVT_OK && so_far < 4 && is(line.size, room, wanted[codepage][so_far]) && line.copy == copies[so_far]);
        CHECK(room[line.size] == 0xEE);
        memset(room, 0xEE, sizeof room);
        CHECK(zvt_till_line(till, place, codepage, room, line.size - 1, &line) == ZVT_OK && room[0] == 0xEE && line.copy == copies[so_far]);
        CHECK(zvt_till_line(till, place, 5, room, sizeof room, &line) == ZVT_ARGUMENT && room[0] == 0xEE);
    }
}

/* The card's texts, which are not written where they do not fit. */
static int has_card(zvt_till *till, const char *name, const char *number) {
    uint8_t room[ZVT_CARD_ROOM];
    memset(room, 0xEE, sizeof room);
    if (*name && (zvt_till_card_name(till, room, strlen(name) - 1) != strlen(name) || room[0] != 0xEE)) return 0;
    if (*number && (zvt_till_card_number(till, room, strlen(number) - 1) != strlen(number) || room[0] != 0xEE)) return 0;
    return is(zvt_till_card_name(till, room, sizeof room), room, name) && is(zvt_till_card_number(till, room, sizeof room), room, number);
}

static uint32_t feed(zvt_till *till, const uint8_t *bytes, size_t size, size_t cut, uint32_t codepage, size_t *found) {
    uint8_t out[2 * ZVT_ROOM], first[8];
    uint32_t kind = ZVT_NONE;
    zvt_step step;
    for (size_t at = 0; at < size; at += step.taken) {
        CHECK(zvt_till_feed_all(till, bytes + at, size - at < cut ? size - at : cut, out, sizeof out, first, sizeof first, &step) == ZVT_OK);
        if (step.printed) {
            CHECK(is(step.line, first, wanted[ZVT_AS_SENT][*found]));
            *found = lines(till, codepage, *found);
        } else CHECK(step.line == 0);
        if (step.outcome.kind) kind = step.outcome.kind;
    }
    return kind;
}

int main(void) {
    uint8_t out[ZVT_ROOM];
    zvt_till till = {0};
    zvt_step step;
    zvt_line line;
    CHECK(zvt_till_line(&till, 0, 0, out, sizeof out, &line) == ZVT_CLOSED && line.size == 0 && has_card(&till, "", ""));
    for (uint32_t codepage = ZVT_AS_SENT; codepage <= ZVT_UTF_8; codepage++)
        for (size_t cut = 1; cut <= sizeof paid; cut++) {
            size_t found = 0;
            CHECK(zvt_till_new(&till, 0, 0xBE, 978) == ZVT_OK && zvt_till_connected(&till) == ZVT_OK);
            CHECK(zvt_till_line(&till, 0, codepage, out, sizeof out, &line) == ZVT_ARGUMENT);
            CHECK(zvt_till_order(&till, ZVT_REGISTER, 0, out, sizeof out, &step) == ZVT_OK);
            CHECK(feed(&till, registered, sizeof registered, cut, codepage, &found) == ZVT_REGISTERED && found == 0);
            CHECK(zvt_till_order(&till, ZVT_PAY, 1234, out, sizeof out, &step) == ZVT_OK && has_card(&till, "", ""));
            CHECK(feed(&till, paid, sizeof paid, cut, codepage, &found) == ZVT_PAID && found == 4);
            CHECK(has_card(&till, "girocard", "672612******1234"));
            found = 3;
            CHECK(feed(&till, paid + 27, 11, cut, codepage, &found) == ZVT_NONE && found == 4);
            CHECK(has_card(&till, "girocard", "672612******1234") && zvt_till_lost(&till, &step) == ZVT_OK);
            CHECK(has_card(&till, "girocard", "672612******1234") && zvt_till_connected(&till) == ZVT_OK);
            CHECK(zvt_till_order(&till, ZVT_REGISTER, 0, out, sizeof out, &step) == ZVT_OK && has_card(&till, "", ""));
            CHECK(feed(&till, registered, sizeof registered, cut, codepage, &found) == ZVT_REGISTERED);
            /* a status outside an order is about none */
            CHECK(feed(&till, paid + 45, 42, cut, codepage, &found) == ZVT_NONE && has_card(&till, "", ""));
        }
    zvt_till_free(&till);
    CHECK(live == 0 && failed > 0);
    printf("receipts: %ld refused allocations met\n", failed);
    return 0;
}
