/* A till that keeps its book in a file, by hand: journal_demo FILE. Each run goes on from the runs before it. The terminal's
 * bytes are made up here. cc journal_demo.c -lzvt */
#define _DEFAULT_SOURCE
#include "zvt.h"
#include <fcntl.h>
#include <inttypes.h>
#include <stdio.h>
#include <stdlib.h>
#include <string.h>
#include <sys/file.h>
#include <time.h>
#include <unistd.h>

static uint8_t record[ZVT_RECORD_ROOM + 1];
static int file;
static off_t gate; /* the line feed at the end of the records: a first byte over it makes the next record count */

static void fail(const char *what) { perror(what); exit(4); }

static void write_synced(const uint8_t *bytes, size_t size, off_t at) {
    if (pwrite(file, bytes, size, at) != (ssize_t)size || fdatasync(file)) fail("the book");
}

/* Makes a record durable: all of it but its first byte, and the next gate; and then that byte, over the gate. */
static void append(size_t size) {
    uint8_t first = record[0];
    record[size] = '\n';
    write_synced(record + 1, size, gate + 1);
    write_synced(&first, 1, gate);
    gate += size;
}

/* Opens the file, and makes it end at its records and a gate. zvt_journal.py keeps what it cuts, and looks at more. */
static size_t open_book(const char *path, uint8_t *text, size_t room) {
    file = open(path, O_RDWR | O_CREAT, 0600);
    if (file < 0 || flock(file, LOCK_EX | LOCK_NB) || fsync(file)) fail(path);
    ssize_t size = pread(file, text, room, 0);
    if (size < 0) fail(path);
    size_t end = 0;
    for (size_t at = 0; at < (size_t)size; at++)
        if (text[at] == '\n') {
            if (at == end) break;
            end = at + 1;
        }
    gate = end;
    if (ftruncate(file, gate) || fdatasync(file)) fail(path);
    write_synced((const uint8_t *)"\n", 1, gate);
    return end;
}

/* Gives an order, and hears the terminal's bytes. */
static void run(zvt_till *till, uint32_t order, uint64_t number, const uint8_t *reply, size_t length) {
    uint8_t out[ZVT_ROOM];
    zvt_step step;
    zvt_answer answer;
    time_t now = time(NULL);
    char at[32];
    const char *reference = order == ZVT_PAY ? "A-1009" : ""; /* of the caller's own; it may be empty */
    strftime(at, sizeof at, "%Y-%m-%dT%H:%M:%SZ", gmtime(&now));
    if (zvt_till_order(till, order, number, out, sizeof out, &step)) exit(1);
    zvt_record_order(order, number, out, step.send, (const uint8_t *)at, strlen(at), (const uint8_t *)reference,
                     strlen(reference), record, ZVT_RECORD_ROOM, &answer);
    append(answer.size);
    printf("send %" PRIu64 " bytes\n", step.send); /* only now */
    for (size_t at = 0; at < length; at += answer.size) {
        size_t size = zvt_record_heard(reply + at, length - at, record, ZVT_RECORD_ROOM, &answer);
        if (answer.status != ZVT_WHOLE) exit(1); /* ZVT_MORE: read on; ZVT_REFUSED: zvt_till_lost */
        append(size);
        zvt_till_feed(till, reply + at, answer.size, out, sizeof out, &step);
        printf("heard %" PRIu64 " bytes, send %" PRIu64 ", outcome %u\n", answer.size, step.send, step.outcome.kind);
    }
}

/* Shows the reference of each payment in the book. Its line has the time, too: "booked at 2026-11-28T09:14:03Z ref A-1009". */
static void show_notes(zvt_till *till, const uint8_t *text, size_t size) {
    static char lines[1 << 16];
    zvt_answer answer;
    zvt_record_notes(till, text, size, (uint8_t *)lines, sizeof lines - 1, &answer);
    if (answer.status || answer.size >= sizeof lines) exit(1);
    lines[answer.size] = 0;
    for (char *line = strtok(lines, "\n"); line; line = strtok(NULL, "\n")) {
        const char *reference = strstr(line, " ref ");
        printf("%.*s under %s\n", (int)strcspn(line, " "), line, reference ? reference + 5 : "no reference");
    }
}

int main(int count, char **words) {
    static const uint8_t done[] = {0x80, 0, 0, 0x06, 0x0F, 0};
    static uint8_t text[1 << 20];
    uint8_t paid[] = {0x80, 0, 0, 0x04, 0x0F, 13, 0x27, 0, 0x04, 0, 0, 0, 0, 0x12, 0x34, 0x0B, 0, 0, 0, 0x06, 0x0F, 0};
    zvt_till till = {0};
    zvt_state state;
    zvt_answer answer;
    if (count != 2 || zvt_abi() != ZVT_ABI || zvt_till_new(&till, 0, 0xBE, 978)) return 2;
    size_t size = open_book(words[1], text, sizeof text);
    if (size == 0) {
        zvt_record_opening(978, record, ZVT_RECORD_ROOM, &answer);
        append(answer.size);
    } else {
        zvt_till_recover(&till, text, size, &answer);
        if (answer.status) {
            printf("no book: status %u, reason %u at %" PRIu64 "\n", answer.status, answer.reason, answer.place);
            return 3;
        }
        show_notes(&till, text, size);
    }
    zvt_till_state(&till, &state);
    printf("booked %" PRIu64 ", unclear %" PRIu64 ", total %" PRIu64 "\n", state.booked, state.unclear, state.total);
    zvt_record_lost(record, ZVT_RECORD_ROOM, &answer);
    append(answer.size);
    zvt_till_connected(&till);
    run(&till, ZVT_REGISTER, 0, done, sizeof done);
    paid[18] = state.booked + 1; /* its trace number */
    run(&till, ZVT_PAY, 1234, paid, sizeof paid);
    run(&till, ZVT_PAY, 500, paid, 3); /* and the process ends */
    return 0;
}
