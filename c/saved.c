/* A till is saved while a payment runs, and once it is booked; and while a reversal runs, and once B4 ended it. Each saved
 * byte is altered in turn, and the bytes are cut at each length: all are refused, and nothing leaks. Bytes of the first
 * layout load. Linked with malloc, realloc and free wrapped: c/check does it. */
#include "zvt.h"
#include <stdio.h>
#include <stdlib.h>
#include <string.h>
static long left = -1, live = 0;
void *__real_malloc(size_t n); void *__real_realloc(void *p, size_t n); void __real_free(void *p);
static int fails(void) { if (left < 0) return 0; if (left == 0) return 1; left--; return 0; }
void *__wrap_malloc(size_t n) { if (fails()) return 0; live++; return __real_malloc(n); }
void *__wrap_realloc(void *p, size_t n) { if (fails()) return 0; if (!p) live++; return __real_realloc(p, n); }
void __wrap_free(void *p) { if (p) live--; __real_free(p); }
static const uint8_t S[] = {0x80,0,0, 0x04,0x0F,0x10,0x27,0,4,0,0,0,0,0x12,0x34,0x0B,0,0,0x17,0x87,0,5, 0x06,0x0F,0};
static const uint8_t R[] = {0x80,0,0,0x06,0x0F,0};
/* What the payment was saved in by the first layout, while the next one ran. */
static const uint8_t FIRST[] = {
    0x5A, 0x56, 0x54, 0x01, 0x00, 0x00, 0x01, 0x00, 0x00, 0x01, 0x09, 0x78, 0x06, 0x07, 0x00, 0x00, 0x00, 0x00, 0x00, 0x00, 0xBE, 0x00, 0x00, 0x00,
    0x00, 0x00, 0x00, 0x00, 0x12, 0x34, 0x00, 0x00, 0x17, 0x00, 0x01, 0x00, 0x05,
    0x00, 0x00, 0x00, 0x00, 0x07, 0x77, 0x07, 0x00, 0x00, 0x08, 0x27, 0x00, 0x02, 0x21, 0x95};
/* The terminal took the payment back before. */
static const uint8_t B4[] = {0x84,0xB4,0};
static void feed(zvt_till *t, const uint8_t *p, size_t n) {
    uint8_t out[ZVT_ROOM]; zvt_step s;
    for (size_t at = 0; at < n; at += s.taken)
        if (zvt_till_feed(t, p + at, n - at, out, sizeof out, &s)) exit(2);
}
static long refused = 0;
/* Whether each altered byte and each cut of what is saved is refused. */
static int guards(zvt_till *t, const uint8_t *saved, size_t n) {
    uint8_t more[512];
    for (size_t i = 0; i < n; i++)
        for (int x = 1; x < 256; x++) {
            memcpy(more, saved, n); more[i] ^= x;
            if (zvt_till_load(t, more, n) != ZVT_REFUSED) return 0;
            refused++;
        }
    for (size_t k = 0; k < n; k++) if (zvt_till_load(t, saved, k) != ZVT_REFUSED) return 0;
    memcpy(more, saved, n); more[n] = 0;
    return zvt_till_load(t, more, n + 1) == ZVT_REFUSED;
}
/* Whether the till has one payment, of this doubt and cause, and what it is saved in loads as such a till too. */
static int doubts(zvt_till *t, uint32_t doubt, uint32_t cause) {
    zvt_till again = {0}; zvt_state st; zvt_entry e; zvt_answer a; uint8_t saved[512];
    for (int loaded = 0; loaded < 2; loaded++) {
        zvt_till *shown = loaded ? &again : t;
        zvt_till_state(shown, &st);
        if (st.booked != 1 || st.total != 1234 || st.unclear_reversals != (doubt == ZVT_UNCLEAR_REVERSAL)) return 0;
        if (zvt_till_entry(shown, 0, &e) || e.trace != 17 || e.reversed || e.doubt != doubt || e.cause != cause) return 0;
        if (!loaded) { zvt_till_save(t, saved, sizeof saved, &a); if (a.status || zvt_till_load(&again, saved, a.size)) return 0; }
    }
    int guarded = guards(&again, saved, a.size);
    zvt_till_free(&again);
    return guarded;
}
int main(void) {
    zvt_till t = {0}, again = {0}; zvt_step s; zvt_state st; zvt_entry e; zvt_answer a;
    uint8_t out[ZVT_ROOM], saved[512], more[512];
    if (zvt_till_new(&t, 0, 0xBE, 978)) return 3;
    zvt_till_connected(&t);
    zvt_till_order(&t, ZVT_REGISTER, 0, out, sizeof out, &s); feed(&t, R, sizeof R);
    zvt_till_order(&t, ZVT_PAY, 1234, out, sizeof out, &s); feed(&t, S, sizeof S);
    zvt_till_order(&t, ZVT_PAY, 777, out, sizeof out, &s);
    zvt_till_save(&t, saved, 10, &a);
    if (a.status || a.size != 24 + 14 + 7 + 8) return 4;
    zvt_till_save(&t, saved, sizeof saved, &a);
    size_t n = a.size;
    if (zvt_till_load(&again, saved, n)) return 5;
    zvt_till_state(&again, &st);
    if (st.booked != 1 || st.total != 1234 || st.unclear != 1 || st.running || st.registered || st.last.kind != ZVT_UNCLEAR || st.last.code != ZVT_LINE) return 6;
    if (zvt_till_entry(&again, 0, &e) || e.trace != 17 || e.receipt != 5 || !e.has_receipt || e.reversed || e.doubt || e.cause) return 7;
    if (zvt_till_unclear(&again, 0, &e) || e.amount != 777 || e.cause != ZVT_LINE || e.doubt) return 8;
    zvt_till_save(&again, more, sizeof more, &a);
    if (a.size != n || memcmp(saved, more, n)) return 9;
    /* bytes of the first layout make the same till, which is saved in this one */
    if (zvt_till_load(&again, FIRST, sizeof FIRST)) return 20;
    zvt_till_save(&again, more, sizeof more, &a);
    if (a.size != n || memcmp(saved, more, n)) return 21;
    /* the number 17 is still used: a payment under it is unclear, and not booked again */
    zvt_till_connected(&again);
    zvt_till_order(&again, ZVT_REGISTER, 0, out, sizeof out, &s); feed(&again, R, sizeof R);
    zvt_till_order(&again, ZVT_PAY, 1234, out, sizeof out, &s); feed(&again, S, sizeof S);
    zvt_till_state(&again, &st);
    if (st.booked != 1 || st.unclear != 2 || st.last.code != ZVT_TRACE_USED) return 10;
    if (!guards(&again, saved, n) || !guards(&again, FIRST, sizeof FIRST)) return 11;
    zvt_till_state(&again, &st);
    if (st.booked != 1 || st.unclear != 2) return 14;
    unsigned seed = 1;
    for (int i = 0; i < 100000; i++) {
        memcpy(more, saved, n);
        for (int k = 0; k < 3; k++) more[rand_r(&seed) % n] = rand_r(&seed);
        if (zvt_till_load(&again, more, n) != ZVT_REFUSED && memcmp(more, saved, n)) { printf("altered bytes were taken\n"); return 15; }
    }
    int wants = 0;
    for (long fail = 0; fail < 60; fail++) {
        left = fail; zvt_till_save(&t, more, sizeof more, &a); if (a.status == ZVT_NO_MEMORY) wants++; else if (a.status) return 16;
        left = fail; uint32_t r = zvt_till_load(&again, saved, n); if (r == ZVT_NO_MEMORY) wants++; else if (r) return 17;
    }
    left = -1;
    /* a reversal whose line breaks is unclear, as is one that runs; B4 ends that */
    zvt_till_new(&t, 0, 0xBE, 978); zvt_till_connected(&t);
    zvt_till_order(&t, ZVT_REGISTER, 0, out, sizeof out, &s); feed(&t, R, sizeof R);
    zvt_till_order(&t, ZVT_PAY, 1234, out, sizeof out, &s); feed(&t, S, sizeof S);
    if (!doubts(&t, ZVT_NO_DOUBT, 0)) return 22;
    if (zvt_till_order(&t, ZVT_REVERSE, 0, out, sizeof out, &s)) return 23;
    zvt_till_save(&t, more, sizeof more, &a);
    if (zvt_till_load(&again, more, a.size) || !doubts(&again, ZVT_UNCLEAR_REVERSAL, ZVT_LINE)) return 24;
    zvt_till_lost(&t, &s);
    if (s.outcome.kind != ZVT_UNCLEAR || s.outcome.code != ZVT_LINE || !doubts(&t, ZVT_UNCLEAR_REVERSAL, ZVT_LINE)) return 25;
    zvt_till_connected(&t);
    zvt_till_order(&t, ZVT_REGISTER, 0, out, sizeof out, &s); feed(&t, R, sizeof R);
    if (zvt_till_order(&t, ZVT_REVERSE, 0, out, sizeof out, &s)) return 26;
    feed(&t, B4, sizeof B4);
    zvt_till_state(&t, &st);
    if (st.last.kind != ZVT_ORDER_REFUSED || st.last.code != 0xB4 || !doubts(&t, ZVT_TAKEN_BACK, 0)) return 27;
    zvt_till_free(&t); zvt_till_free(&again); zvt_till_free(&again);
    zvt_till_save(&t, more, sizeof more, &a); if (a.status != ZVT_CLOSED) return 18;
    if (live) { printf("leak %ld\n", live); return 19; }
    printf("saved in %zu bytes: %ld altered refused, %d refused allocations met\n", n, refused, wants);
    return 0;
}
