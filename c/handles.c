/* Each call on handles that are closed, freed, or moved: a closed one answers ZVT_CLOSED and changes nothing, a moved one goes on.
 * Then calls in random order on handles that are moved, freed and opened meanwhile: handles [CALLS]. */
#include "zvt.h"
#include <stdio.h>
#include <stdlib.h>
#include <string.h>

#define CHECK(holds) do { if (!(holds)) { printf("handles: line %d: this does not hold: %s\n", __LINE__, #holds); exit(1); } } while (0)
#define HANDLES 8

static const uint8_t ended[] = {0x80, 0, 0, 0x06, 0x0F, 0};
static const uint8_t approved[] = {0x80, 0, 0, 0x04, 0x0F, 13, 0x27, 0, 0x04, 0, 0, 0, 0, 0x12, 0x34, 0x0B, 0, 0, 0x17, 0x06, 0x0F, 0};
static uint8_t out[8 * ZVT_ROOM], line[64], saved[4096];

static const zvt_step nothing;

/* Each call on a handle that is closed; `new` and `load` open it again. */
static void closed(zvt_till *till) {
    zvt_step step;
    zvt_answer answer;
    zvt_state state;
    zvt_entry entry;
    zvt_settlement settlement;
    zvt_pending pending;
    CHECK(zvt_till_connected(till) == ZVT_CLOSED);
    memset(&step, 0xAA, sizeof step);
    CHECK(zvt_till_lost(till, &step) == ZVT_CLOSED && !memcmp(&step, &nothing, sizeof step));
    for (uint32_t order = ZVT_REGISTER; order <= ZVT_CANCEL; order++) {
        memset(&step, 0xAA, sizeof step);
        CHECK(zvt_till_order(till, order, 1, out, sizeof out, &step) == ZVT_CLOSED && !memcmp(&step, &nothing, sizeof step));
    }
    CHECK(zvt_till_order(till, 9, 1, out, sizeof out, &step) == ZVT_ARGUMENT);
    memset(&step, 0xAA, sizeof step);
    CHECK(zvt_till_ask(till, out, sizeof out, &step) == ZVT_CLOSED && !memcmp(&step, &nothing, sizeof step));
    CHECK(zvt_till_settled(till, 0, &settlement) == ZVT_CLOSED && zvt_till_pending(till, &pending) == ZVT_CLOSED);
    memset(&step, 0xAA, sizeof step);
    CHECK(zvt_till_feed(till, ended, sizeof ended, out, sizeof out, &step) == ZVT_CLOSED && !memcmp(&step, &nothing, sizeof step));
    memset(&step, 0xAA, sizeof step);
    CHECK(zvt_till_feed_all(till, ended, sizeof ended, out, sizeof out, line, sizeof line, &step) == ZVT_CLOSED && !memcmp(&step, &nothing, sizeof step));
    CHECK(zvt_till_state(till, &state) == ZVT_CLOSED);
    CHECK(zvt_till_entry(till, 0, &entry) == ZVT_CLOSED && zvt_till_unclear(till, 0, &entry) == ZVT_CLOSED);
    zvt_till_save(till, saved, sizeof saved, &answer);
    CHECK(answer.status == ZVT_CLOSED && answer.size == 0);
    zvt_till_recover(till, (const uint8_t *)"", 0, &answer);
    CHECK(answer.status == ZVT_CLOSED);
    zvt_record_notes(till, (const uint8_t *)"", 0, saved, sizeof saved, &answer);
    CHECK(answer.status == ZVT_CLOSED && answer.size == 0);
    CHECK(zvt_till_load(till, ended, sizeof ended) == ZVT_REFUSED);
    zvt_till_free(till);
    CHECK(till->full == 0);
}

/* Moves a handle to memory of its own, and leaves rubbish where it was. */
static zvt_till *moved(zvt_till *till) {
    zvt_till *other = malloc(sizeof *other);
    CHECK(other);
    memcpy(other, till, sizeof *other);
    memset(till, 0xAA, sizeof *till);
    free(till);
    return other;
}

/* A payment whose handle is moved between any two calls. */
static void pays_while_it_is_moved(void) {
    zvt_till *till = calloc(1, sizeof *till);
    zvt_step step;
    zvt_state state;
    zvt_answer answer;
    CHECK(till && zvt_till_new(till, 0, 0xBE, 978) == ZVT_OK);
    till = moved(till);
    CHECK(zvt_till_connected(till) == ZVT_OK);
    till = moved(till);
    CHECK(zvt_till_order(till, ZVT_REGISTER, 0, out, sizeof out, &step) == ZVT_OK);
    till = moved(till);
    CHECK(zvt_till_feed_all(till, ended, sizeof ended, out, sizeof out, line, sizeof line, &step) == ZVT_OK && step.outcome.kind == ZVT_REGISTERED);
    till = moved(till);
    CHECK(zvt_till_order(till, ZVT_PAY, 1234, out, sizeof out, &step) == ZVT_OK);
    for (size_t at = 0; at < sizeof approved; at++) { /* in the middle of messages, too */
        till = moved(till);
        CHECK(zvt_till_feed(till, approved + at, 1, out, sizeof out, &step) == ZVT_OK);
    }
    CHECK(step.outcome.kind == ZVT_PAID && step.outcome.trace == 17);
    till = moved(till);
    zvt_till_save(till, saved, sizeof saved, &answer);
    CHECK(answer.status == ZVT_OK && answer.size <= sizeof saved);
    till = moved(till);
    CHECK(zvt_till_load(till, saved, answer.size) == ZVT_OK);
    till = moved(till);
    CHECK(zvt_till_state(till, &state) == ZVT_OK && state.booked == 1 && state.total == 1234);
    till = moved(till);
    zvt_till_free(till);
    closed(till);
    free(till);
}

/* One call at random; a handle answers ZVT_CLOSED exactly where it has no till. */
static void calls(zvt_till **till, unsigned number) {
    zvt_step step;
    zvt_answer answer;
    zvt_state state;
    zvt_entry entry;
    zvt_settlement settlement;
    zvt_pending pending;
    uint32_t status = 0, open = (*till)->full;
    switch (number % 14) {
    case 0: status = zvt_till_connected(*till); break;
    case 1: status = zvt_till_lost(*till, &step); break;
    case 2: status = zvt_till_order(*till, 1 + number / 14 % 5, 1 + number % 1000, out, sizeof out, &step); break;
    case 3: status = zvt_till_feed_all(*till, approved, number / 14 % sizeof approved, out, sizeof out, line, sizeof line, &step); break;
    case 4: status = zvt_till_feed(*till, ended, number / 14 % sizeof ended, out, sizeof out, &step); break;
    case 5: status = zvt_till_state(*till, &state); break;
    case 6: status = zvt_till_entry(*till, number / 14 % 3, &entry); break;
    case 7: zvt_till_save(*till, saved, sizeof saved, &answer), status = answer.status; break;
    case 8: *till = moved(*till); return;
    case 9: zvt_till_free(*till); CHECK((*till)->full == 0); return;
    case 10: CHECK(zvt_till_new(*till, number % 1000000, 0xBE, 978) == ZVT_OK && (*till)->full == 1); return;
    case 11: status = zvt_till_ask(*till, out, sizeof out, &step); break;
    case 12: status = zvt_till_settled(*till, number / 14 % 3, &settlement); break;
    case 13: status = zvt_till_pending(*till, &pending); break;
    }
    CHECK((status == ZVT_CLOSED) == !open && (*till)->full == open);
}

int main(int count, char **words) {
    zvt_till till = {0}, *tills[HANDLES];
    long times = count > 1 ? atol(words[1]) : 200000;
    closed(&till);
    CHECK(zvt_till_new(&till, 0, 0xBE, 978) == ZVT_OK);
    zvt_till_free(&till);
    closed(&till);
    pays_while_it_is_moved();
    srand(1);
    for (int it = 0; it < HANDLES; it++) CHECK((tills[it] = calloc(1, sizeof till)));
    for (long it = 0; it < times; it++) calls(&tills[rand() % HANDLES], (unsigned)rand());
    for (int it = 0; it < HANDLES; it++) zvt_till_free(tills[it]), free(tills[it]);
    printf("handles: each call on closed, freed and moved handles, %ld calls in random order\n", times);
    return 0;
}
