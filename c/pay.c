/* Registers at a terminal over TCP and takes a payment: pay HOST PORT CENTS. Start `zvt terminal --port PORT` first. This till
 * is forgotten when the program ends; journal_demo.c shows how one is kept in a file. cc pay.c -lzvt */
#define _DEFAULT_SOURCE
#include "zvt.h"
#include <inttypes.h>
#include <netdb.h>
#include <netinet/in.h>
#include <netinet/tcp.h>
#include <stdio.h>
#include <stdlib.h>
#include <sys/socket.h>
#include <sys/time.h>
#include <unistd.h>

/* A line to the terminal, or -1. A read gives up after a minute of silence. */
static int connected(const char *host, const char *port) {
    struct addrinfo hints = {.ai_socktype = SOCK_STREAM}, *found, *at;
    struct timeval patience = {.tv_sec = 60};
    int line = -1, one = 1;
    if (getaddrinfo(host, port, &hints, &found)) return -1;
    for (at = found; at && line < 0; at = at->ai_next) {
        line = socket(at->ai_family, at->ai_socktype, at->ai_protocol);
        if (line >= 0 && connect(line, at->ai_addr, at->ai_addrlen)) {
            close(line);
            line = -1;
        }
    }
    freeaddrinfo(found);
    if (line < 0) return -1;
    setsockopt(line, IPPROTO_TCP, TCP_NODELAY, &one, sizeof one);
    setsockopt(line, SOL_SOCKET, SO_RCVTIMEO, &patience, sizeof patience);
    return line;
}

static int sent(int line, const uint8_t *bytes, uint64_t size) {
    while (size > 0) {
        ssize_t count = send(line, bytes, size, MSG_NOSIGNAL);
        if (count <= 0) return 0;
        bytes += count;
        size -= count;
    }
    return 1;
}

/* Prints the lines of the last message. They are UTF-8. */
static void print_lines(zvt_till *till) {
    static uint8_t text[ZVT_LINE_ROOM];
    zvt_line row;
    for (size_t at = 0; zvt_till_line(till, at, ZVT_CP437, text, sizeof text, &row) == ZVT_OK; at++)
        if (row.size <= sizeof text) printf("  | %.*s\n", (int)row.size, (const char *)text);
}

/* Feeds a piece of what the terminal sent, answers it and prints its lines. 0 where the line has to be given up. */
static int heard(zvt_till *till, int line, const uint8_t *piece, size_t size, zvt_outcome *outcome) {
    uint8_t out[ZVT_ROOM], text[1];
    zvt_step step;
    for (size_t at = 0; at < size; at += step.taken) {
        uint32_t status = zvt_till_feed_all(till, piece + at, size - at, out, sizeof out, text, sizeof text, &step);
        if (step.printed) print_lines(till);
        if (step.outcome.kind != ZVT_NONE) *outcome = step.outcome;
        if (!sent(line, out, step.send) || status != ZVT_OK) return 0;
    }
    return 1;
}

/* Gives an order, and hears the terminal until the order ends. A lost line ends it too. */
static zvt_outcome ordered(zvt_till *till, int line, uint32_t order, uint64_t number) {
    uint8_t out[ZVT_ROOM], piece[1024];
    zvt_outcome outcome = {ZVT_NONE};
    zvt_step step;
    uint32_t refusal = zvt_till_order(till, order, number, out, sizeof out, &step);
    if (refusal) {
        size_t size = zvt_refusal_name(refusal, piece, sizeof piece);
        fprintf(stderr, "not sent: %.*s\n", (int)size, (const char *)piece);
        exit(1);
    }
    int is_up = sent(line, out, step.send);
    while (is_up && outcome.kind == ZVT_NONE) {
        ssize_t size = read(line, piece, sizeof piece);
        is_up = size > 0 && heard(till, line, piece, size, &outcome);
    }
    if (outcome.kind == ZVT_NONE) {
        zvt_till_lost(till, &step);
        outcome = step.outcome;
    }
    return outcome;
}

static void print(const char *what, zvt_outcome outcome) {
    uint8_t name[64];
    size_t size = zvt_outcome_name(outcome.kind, name, sizeof name);
    printf("%s -> %.*s", what, (int)size, (const char *)name);
    if (outcome.kind == ZVT_PAID) printf(", trace %06" PRIu32, outcome.trace);
    if (outcome.has_receipt) printf(", receipt %04" PRIX32, outcome.receipt);
    if (outcome.kind == ZVT_DECLINED || outcome.kind == ZVT_ORDER_REFUSED || outcome.kind == ZVT_ABORTED) {
        size = zvt_result_name(outcome.code, name, sizeof name);
        printf(" %02" PRIX32 " %.*s", outcome.code, (int)size, (const char *)name);
    }
    if (outcome.kind == ZVT_UNCLEAR) {
        size = zvt_cause_name(outcome.code, name, sizeof name);
        printf(": %.*s: look at the terminal's journal before you take the amount again", (int)size, (const char *)name);
    }
    printf("\n");
}

int main(int count, char **words) {
    zvt_till till = {0};
    if (count != 4 || zvt_abi() != ZVT_ABI || zvt_till_new(&till, 0, 0xBE, 978)) return 2;
    int line = connected(words[1], words[2]);
    if (line < 0) {
        perror("the line");
        return 4;
    }
    zvt_till_connected(&till);
    print("register", ordered(&till, line, ZVT_REGISTER, 0));
    zvt_outcome paid = ordered(&till, line, ZVT_PAY, strtoull(words[3], NULL, 10));
    print("pay", paid);
    close(line);
    zvt_till_free(&till);
    return paid.kind != ZVT_PAID;
}
