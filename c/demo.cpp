// Pays in memory, saves while a second payment runs, and goes on from what was saved: reverses until the line is lost, and again; and asks what became of a payment. c++ -std=c++17 demo.cpp -lzvt
#include "zvt.hpp"
#include <cinttypes>
#include <cstdio>

static void say(const char *what, const zvt::Reply &reply) {
    std::printf("%s: outcome %u, to send:", what, reply.outcome.kind);
    for (uint8_t byte : reply.send) std::printf(" %02X", byte);
    std::printf("\n");
    for (const zvt::Line &line : reply.lines) std::printf("  printed%s: %s\n", line.copy == ZVT_CUSTOMER ? " for the customer" : "", line.text.c_str());
}

/* A till's journal, which would be in a file, and the till that is made of it. */
static void show_journal(const uint8_t *registered, size_t length) {
    zvt::Till till(123456);
    std::string journal = zvt::record_opening() + zvt::record_lost();
    till.connected();
    journal += zvt::record_order(ZVT_REGISTER, 0, till.order(ZVT_REGISTER), {"2026-11-28T09:14:00Z", ""});
    while (length > 0) {
        const zvt::Heard heard = zvt::record_heard(registered, length);
        journal += heard.record;
        till.feed(registered, heard.answer.size);
        registered += heard.answer.size;
        length -= heard.answer.size;
    }
    journal += zvt::record_order(ZVT_PAY, 1234, till.order(ZVT_PAY, 1234), {"2026-11-28T09:14:03Z", "A-1009"}); /* zvt::now("A-1009") */
    std::printf("%s", journal.c_str());
    zvt::Till again(123456);
    again.recover(journal);
    for (const zvt_entry &entry : again.unclear())
        std::printf("unclear %" PRIu64 " for cause %u\n", entry.amount, entry.cause);
    for (const zvt::Note &note : again.notes(journal).unclear)
        std::printf("ordered at %s under %s\n", note.at.c_str(), note.reference.c_str());
    std::string damaged = journal;
    damaged.replace(damaged.find("# pay 1234"), 10, "# pay 1235");
    for (const std::string &text : {journal + "< 8\n", damaged}) {
        try {
            again.recover(text);
        } catch (const zvt::BadJournal &bad) {
            std::printf("no journal: reason %u at %" PRIu64 "\n", bad.reason, bad.place);
        }
    }
}

/* A payment whose line is lost, and what the terminal's answers to an ask say about it: its status from before, or another. */
static void show_asks(const uint8_t *registered, size_t length) {
    const uint8_t answers[][25] = {
        {0x80, 0x00, 0x00, 0x04, 0x0F, 0x10, 0x27, 0x00, 0x04, 0, 0, 0, 0, 0x12, 0x34, 0x0B, 0, 0, 0x17, 0x87, 0, 5, 0x06, 0x0F, 0x00},
        {0x80, 0x00, 0x00, 0x04, 0x0F, 0x10, 0x27, 0x00, 0x04, 0, 0, 0, 0, 0x05, 0x00, 0x0B, 0, 0, 0x18, 0x87, 0, 6, 0x06, 0x0F, 0x00}};
    for (const auto &answer : answers) {
        zvt::Till till;
        till.connected();
        till.order(ZVT_REGISTER);
        till.feed(registered, length);
        till.order(ZVT_PAY, 1234);
        till.feed(answers[0], sizeof answers[0]);
        till.order(ZVT_PAY, 500);
        till.lost();
        till.connected();
        till.order(ZVT_REGISTER);
        till.feed(registered, length);
        std::printf("pending %u, to send:", till.pending().kind);
        for (uint8_t byte : till.ask()) std::printf(" %02X", byte);
        std::printf(", running %u\n", till.state().running);
        till.feed(answer, sizeof answer);
        for (const zvt_settlement &one : till.settled())
            std::printf("settled: kind %u at %" PRIu64 ", trace number %06u, running %u, pending %u\n", one.kind, one.place, one.trace, till.state().running, till.pending().kind);
    }
    std::printf("%s", zvt::record_ask({"2026-11-28T09:14:05Z", ""}).c_str()); /* zvt::record_ask() */
}

int main() {
    const uint8_t registered[] = {0x80, 0x00, 0x00, 0x06, 0x0F, 0x00};
    const uint8_t approved[] = {0x80, 0x00, 0x00, 0x06, 0xD1, 0x07, 0x00, 'T', 'h', 'a', 'n', 'k', 's',
                                0x06, 0xD3, 0x0F, 0x06, 0x0D, 0x1F, 0x07, 0x01, 0x02, 0x25, 0x07, 0x07, 0x01, '1', 0x07, 0x02, 0x81, '2',
                                0x04, 0x0F, 0x27, 0x27, 0x00, 0x04, 0x00, 0x00, 0x00, 0x00, 0x12, 0x34, 0x0B, 0x00, 0x00, 0x17, 0x87, 0x00, 0x05,
                                0x22, 0xF0, 0xF8, 0x67, 0x26, 0x12, 0x34, 0x56, 0x78, 0x12, 0x34, 0x8B, 0xF0, 0xF9, 'g', 'i', 'r', 'o', 'c', 'a', 'r', 'd', 0x00,
                                0x06, 0x0F, 0x00,
                                0x06, 0xD1, 0x04, 0x00, 'B', 'y', 'e', 0x06, 0xD1, 0x04, 0x00, 'B', 'y', 'e'};
    const uint8_t reversed_before[] = {0x84, 0xB4, 0x00};
    zvt::Till till;
    till.connected();
    till.order(ZVT_REGISTER);
    say("registered", till.feed(registered, sizeof registered));
    till.order(ZVT_PAY, 1234);
    till.codepage = ZVT_CP437;
    say("paid", till.feed(approved, sizeof approved));
    std::printf("card: %s %s\n", till.card_name().c_str(), till.card_number().c_str());
    try {
        till.order(ZVT_REVERSE, 7);
    } catch (const zvt::Refused &refused) {
        std::printf("refused: status %u\n", refused.status);
    }
    till.order(ZVT_PAY, 777);
    zvt::Till again = zvt::Till::loaded(till.save());
    for (const zvt_entry &entry : again.book())
        std::printf("booked %" PRIu64 " under trace number %06u\n", entry.amount, entry.trace);
    for (const zvt_entry &entry : again.unclear())
        std::printf("unclear %" PRIu64 " for cause %u\n", entry.amount, entry.cause);
    till = std::move(again);
    till.connected();
    till.order(ZVT_REGISTER);
    till.feed(registered, sizeof registered);
    till.order(ZVT_REVERSE, 0);
    const zvt_outcome lost = till.lost();
    std::printf("the line is lost: outcome %u for cause %u\n", lost.kind, lost.code);
    zvt::Till saved = zvt::Till::loaded(till.save());
    std::printf("unclear reversals: %" PRIu64 "\n", saved.state().unclear_reversals);
    for (const zvt_entry &entry : saved.book())
        if (entry.doubt == ZVT_UNCLEAR_REVERSAL) std::printf("%06u may be taken back, for cause %u\n", entry.trace, entry.cause);
    saved.connected();
    saved.order(ZVT_REGISTER);
    saved.feed(registered, sizeof registered);
    saved.order(ZVT_REVERSE, 0);
    say("reversed again", saved.feed(reversed_before, sizeof reversed_before));
    std::printf("unclear reversals: %" PRIu64 ", doubt %u\n", saved.state().unclear_reversals, saved.book()[0].doubt);
    std::printf("total %" PRIu64 "\n", till.state().total);
    /* a till that was moved from is closed */
    zvt::Till taken = std::move(till);
    try {
        till.state();
    } catch (const zvt::Refused &refused) {
        std::printf("moved: status %u, total %" PRIu64 ", version %s\n", refused.status, taken.state().total, zvt::version().c_str());
    }
    show_journal(registered, sizeof registered);
    show_asks(registered, sizeof registered);
}
