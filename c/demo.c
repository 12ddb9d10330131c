/* Reads an authorisation and prints its text; then bytes that are refused. cc demo.c -lzvt */
#include "zvt.h"
#include <inttypes.h>
#include <stdio.h>

int main(void) {
    if (zvt_abi() != ZVT_ABI) return 1; /* another library than that of zvt.h */
    const uint8_t row[] = {0x06, 0x01, 0x0A, 0x04, 0x00, 0x00, 0x00, 0x00, 0x12, 0x34, 0x49, 0x09, 0x78};
    uint8_t text[256];
    zvt_answer answer;
    size_t size = zvt_text(row, sizeof row, text, sizeof text, &answer);
    printf("status %u, %" PRIu64 " bytes\n%.*s", answer.status, answer.size, (int)size, (const char *)text);
    size = zvt_text(row, sizeof row, text, 3, &answer);
    printf("a room of 3 is too little for %zu\n", size);
    zvt_scan(row, sizeof row - 1, &answer);
    printf("one byte less: status %u\n", answer.status);
    const uint8_t bad[] = {0x06, 0x01, 0x02, 0xD0};
    zvt_scan(bad, sizeof bad, &answer);
    size = zvt_reason_name(answer.reason, text, sizeof text);
    printf("refused at %" PRIu64 " for reason %u, %.*s\n", answer.place, answer.reason, (int)size, (const char *)text);
    zvt_scan(bad, 0, &answer);
    printf("no bytes: status %u\n", answer.status);

    zvt_till till = {0};
    zvt_step step;
    zvt_state state;
    uint8_t out[ZVT_ROOM];
    printf("closed: %u\n", zvt_till_state(&till, &state));
    zvt_till_new(&till, 0, 0xBE, 978);
    uint32_t refusal = zvt_till_order(&till, ZVT_PAY, 1234, out, sizeof out, &step);
    size = zvt_refusal_name(refusal, text, sizeof text);
    printf("refused: %u, %.*s\n", refusal, (int)size, (const char *)text);
    zvt_till_connected(&till);
    printf("register: %u, to send:", zvt_till_order(&till, ZVT_REGISTER, 0, out, sizeof out, &step));
    for (size_t i = 0; i < step.send; i++) printf(" %02X", out[i]);
    printf("\n");
    const uint8_t reply[] = {0x80, 0x00, 0x00, 0x06, 0x0F, 0x00};
    for (size_t at = 0; at < sizeof reply; at += step.taken) {
        uint32_t status = zvt_till_feed(&till, reply + at, sizeof reply - at, out, sizeof out, &step);
        size = zvt_outcome_name(step.outcome.kind, text, sizeof text);
        printf("fed: status %u, taken %" PRIu64 ", message %u, send %" PRIu64 ", outcome %u%s%.*s\n", status, step.taken, step.message,
               step.send, step.outcome.kind, size ? ", " : "", (int)size, (const char *)text);
        if (status != ZVT_OK || !step.message) break;
    }
    zvt_till_order(&till, ZVT_PAY, 1234, out, sizeof out, &step);
    zvt_till_state(&till, &state);
    printf("running: %u\n", state.running);
    zvt_till_lost(&till, &step);
    size = zvt_cause_name(step.outcome.code, text, sizeof text);
    printf("the line is lost: outcome %u, %.*s\n", step.outcome.kind, (int)size, (const char *)text);
    zvt_entry entry;
    uint32_t shown = zvt_till_unclear(&till, 0, &entry);
    printf("unclear: status %u, %" PRIu64 " for cause %u\n", shown, entry.amount, entry.cause);
    printf("no second one: status %u\n", zvt_till_unclear(&till, 1, &entry));
    size = zvt_result_name(0x6C, text, sizeof text);
    printf("result code 6C: %.*s\n", (int)size, (const char *)text);
    size = zvt_status_name(0x0A, text, sizeof text);
    printf("status 0A: %.*s\n", (int)size, (const char *)text);
    printf("a number that names nothing: %zu\n", zvt_cause_name(0, text, sizeof text));
    zvt_till_free(&till);
    zvt_till_free(&till);
    printf("closed again: %u\n", zvt_till_state(&till, &state));
    return 0;
}
