/* Each allocation fails in turn, at each cutting of the terminal's bytes: the call says so, is made again, and the payment
 * is booked. Then random bytes. Nothing is written behind the room, nothing leaks. Linked with malloc, realloc and free
 * wrapped: c/check does it. */
#include "zvt.h"
#include <stdio.h>
#include <stdlib.h>
#include <string.h>
static long left = -1, calls = 0, frees = 0;
void *__real_malloc(size_t n); void *__real_realloc(void *p, size_t n); void __real_free(void *p);
static int fails(void) { calls++; if (left < 0) return 0; if (left == 0) return 1; left--; return 0; }
static long live = 0;
void *__wrap_malloc(size_t n) { if (fails()) return 0; live++; return __real_malloc(n); }
void *__wrap_realloc(void *p, size_t n) { if (fails()) return 0; if (!p) live++; return __real_realloc(p, n); }
void __wrap_free(void *p) { if (p) live--; __real_free(p); }
static const uint8_t S[] = {0x80,0,0, 0x06,0xD1,6,0,'T','h','a','n','k', 0x04,0x0F,0x10,0x27,0,4,0,0,0,0,0x12,0x34,0x0B,0,0,0x17,0x87,0,5, 0x06,0x0F,0};
static const uint8_t R[] = {0x80,0,0,0x06,0x0F,0};
/* Feeds in pieces of this size, each message by itself or all of a piece; so many bytes are to be sent, and this line
 * printed. */
static uint32_t feed(zvt_till *t, const uint8_t *p, size_t n, size_t cut, int all, size_t answers, const char *wanted, int *oom) {
    uint8_t out[64], line[8]; zvt_step s; uint32_t st = 0; size_t at = 0, kind = 0, sent = 0, printed = 0;
    while (at < n) {
        size_t m = n - at < cut ? n - at : cut;
        st = all ? zvt_till_feed_all(t, p + at, m, out, 64, line, 8, &s) : zvt_till_feed(t, p + at, m, out, 32, &s);
        if (s.outcome.kind) kind = s.outcome.kind;
        if (s.printed && all && (s.line != strlen(wanted) || memcmp(line, wanted, s.line))) return 90;
        sent += s.send; printed += s.printed; at += s.taken;
        if (st == ZVT_NO_MEMORY) { (*oom)++; left = -1; continue; }
        if (st) return 100 + st;
    }
    return sent == answers && printed == (wanted != 0) ? kind : 91;
}
int main(void) {
    int ooms = 0, runs = 0;
    for (int all = 0; all < 2; all++)
    for (size_t cut = 1; cut <= sizeof S; cut++)
        for (long fail = -1; fail < 40; fail++) {
            zvt_till t = {0}; zvt_step s; zvt_state st; zvt_answer a; uint8_t out[32], text[64]; int oom = 0;
            left = fail;
            uint32_t r = zvt_till_new(&t, 0, 0xBE, 978);
            if (r == 3) { oom++; left = -1; r = zvt_till_new(&t, 0, 0xBE, 978); }
            if (r) return 1;
            zvt_till_connected(&t);
            if (zvt_till_order(&t, ZVT_REGISTER, 0, out, 32, &s) || s.send != 9) return 2;
            if (feed(&t, R, sizeof R, cut, all, 3, 0, &oom) != ZVT_REGISTERED) return 3;
            r = zvt_till_order(&t, ZVT_PAY, 1234, out, 32, &s);
            if (r == 3) { oom++; left = -1; r = zvt_till_order(&t, ZVT_PAY, 1234, out, 32, &s); }
            if (r || s.send != 13) return 4;
            size_t n = zvt_text(out, s.send, text, 64, &a);
            if (a.status == 3) { oom++; left = -1; n = zvt_text(out, s.send, text, 64, &a); }
            if (n != 50 || a.size != 13) return 5;
            if (feed(&t, S, sizeof S, cut, all, 9, "Thank", &oom) != ZVT_PAID) return 6;
            zvt_till_state(&t, &st);
            if (st.booked != 1 || st.total != 1234 || st.unclear) return 7;
            zvt_entry e; if (zvt_till_entry(&t, 0, &e) || e.trace != 17 || e.receipt != 5 || zvt_till_entry(&t, 1, &e) != 5) return 8;
            zvt_till_free(&t); zvt_till_free(&t);
            if (live) { printf("leak %ld\n", live); return 9; }
            ooms += oom; runs++;
        }
    left = -1; /* random bytes: never a crash, place and reason are sane, nothing leaks */
    unsigned seed = 1; long refused = 0, msgs = 0;
    for (int i = 0; i < 300000; i++) {
        zvt_till t = {0}; zvt_step s; uint8_t out[40], line[24], b[64]; memset(line, 0xEE, 24);
        zvt_till_new(&t, 123456, 0xBE, 978); zvt_till_connected(&t); zvt_till_order(&t, 1, 0, out, 32, &s);
        memset(out, 0xEE, 40);
        static const uint8_t heads[][3] = {{0x04,0x0F,20},{0x06,0x0F,4},{0x80,0,0},{0x06,0xD1,5},{0x06,0x1E,1},{0x84,0x6C,0},{0x06,0x01,9}};
        size_t n = 0; 
        for (int k = 0; k < 2; k++) { memcpy(b + n, heads[rand_r(&seed) % 7], 3); n += 3; for (int j = 0; j < 20; j++) b[n++] = (rand_r(&seed) & 3) ? (uint8_t[]){4,0x27,0,0x0B,0x87,6,0x12,1}[rand_r(&seed) % 8] : rand_r(&seed); }
        size_t at = 0;
        while (at < n) {
            uint32_t r = i & 1 ? zvt_till_feed(&t, b + at, n - at, out, 32, &s) : zvt_till_feed_all(&t, b + at, n - at, out, 32, line, 16, &s);
            at += s.taken; msgs += s.message;
            if (r == 2) { refused++; if (!s.reason || s.reason > 8 || s.place >= n - at) return 20; if (zvt_till_feed(&t, b, 1, out, 32, &s) != 7) return 21; break; }
            if (r || !s.taken || at > n) { printf("r %u taken %lu of %zu\n", r, (unsigned long)s.taken, n); return 22; }
        }
        for (int k = 16; k < 24; k++) if (line[k] != 0xEE) return 25;
        for (int k = 32; k < 40; k++) if (out[k] != 0xEE) return 23;
        zvt_till_free(&t); if (live) return 24;
    }
    printf("%d runs, %d refused allocations met, random: %ld messages, %ld refusals\n", runs, ooms, msgs, refused);
    return 0;
}
