/* zvt.hpp: the till of zvt.h as a C++17 class that owns its handle. Header only. */
#ifndef ZVT_HPP
#define ZVT_HPP
#include "zvt.h"
#include <ctime>
#include <sstream>
#include <stdexcept>
#include <string>
#include <utility>
#include <vector>

namespace zvt {

/* The struct layouts that the library uses. */
static_assert(sizeof(void *) != 8 || (sizeof(zvt_till) == 16 && sizeof(zvt_answer) == 24 && sizeof(zvt_step) == 64 && sizeof(zvt_line) == 16));
static_assert(sizeof(void *) != 8 || (sizeof(zvt_state) == 80 && sizeof(zvt_entry) == 32 && sizeof(zvt_settlement) == 24 && sizeof(zvt_pending) == 16));
static_assert(sizeof(void *) != 8 || (offsetof(zvt_step, outcome) == 44 && offsetof(zvt_state, last) == 56 && offsetof(zvt_entry, doubt) == 28));

/* Thrown if a call is refused. The till has not changed. */
class Refused : public std::runtime_error {
public:
    explicit Refused(uint32_t status) : std::runtime_error("zvt: status " + std::to_string(status)), status(status) {}
    const uint32_t status; /* one of zvt.h's */
};

/* A line to print, in the code page of Till::codepage. */
struct Line {
    std::string text;
    uint32_t copy; /* ZVT_MERCHANT .. ZVT_ADMINISTRATION, another number that the terminal sent, or ZVT_NO_COPY */
};

/* Result of feeding bytes from the terminal. Send `send` whatever the status is. */
struct Reply {
    std::vector<uint8_t> send;
    std::vector<Line> lines; /* of print lines and text blocks */
    zvt_outcome outcome{};   /* how the running order ended, if it did */
    uint64_t taken = 0;
    uint32_t status = ZVT_OK; /* ZVT_REFUSED: no message: give the line up, and call lost(). ZVT_NO_MEMORY: feed what was not taken again. */
};

inline void check(uint32_t status) {
    if (status != ZVT_OK) throw Refused(status);
}

/* Version of the library, such as 0.2.0. */
inline std::string version() {
    uint8_t room[32];
    return {room, room + zvt_version(room, sizeof room)};
}

/* The text that a call writes: ZVT_RECORD_ROOM bytes hold each record. */
template <typename Write> std::string record(Write write) {
    std::vector<uint8_t> room(ZVT_RECORD_ROOM);
    zvt_answer answer{};
    write(room.data(), room.size(), &answer);
    check(answer.status);
    return {room.begin(), room.begin() + answer.size};
}
/* Records of a journal. zvt.h says before what each must be durable. */
inline std::string record_opening(uint16_t currency = 978) {
    return record([&](uint8_t *room, size_t length, zvt_answer *answer) { zvt_record_opening(currency, room, length, answer); });
}
/* What the record of an order or ask says beside it: its time in UTC, such as 2026-11-28T09:14:03Z, and a reference of your own, 1 to 40
 * printable ASCII characters without a space. Either may be empty. */
struct Note {
    std::string at, reference;
};
/* The note of an order or ask that is made now. */
inline Note now(std::string reference = {}) {
    const std::time_t seconds = std::time(nullptr);
    std::tm parts{};
#ifdef _WIN32
    gmtime_s(&parts, &seconds);
#else
    gmtime_r(&seconds, &parts);
#endif
    char at[32];
    return {{at, std::strftime(at, sizeof at, "%Y-%m-%dT%H:%M:%SZ", &parts)}, std::move(reference)};
}
inline const uint8_t *bytes_of(const std::string &text) { return reinterpret_cast<const uint8_t *>(text.data()); }
/* Records an order and the bytes that Till::order returned. */
inline std::string record_order(uint32_t order, uint64_t number, const std::vector<uint8_t> &sent, const Note &note = now()) {
    return record([&](uint8_t *room, size_t length, zvt_answer *answer) {
        zvt_record_order(order, number, sent.data(), sent.size(), bytes_of(note.at), note.at.size(), bytes_of(note.reference),
                         note.reference.size(), room, length, answer);
    });
}
/* Records an ask. Till::ask returns the bytes to send once the record is durable. */
inline std::string record_ask(const Note &note = now()) {
    return record([&](uint8_t *room, size_t length, zvt_answer *answer) {
        zvt_record_ask(bytes_of(note.at), note.at.size(), bytes_of(note.reference), note.reference.size(), room, length, answer);
    });
}
inline std::string record_lost() {
    return record([](uint8_t *room, size_t length, zvt_answer *answer) { zvt_record_lost(room, length, answer); });
}
/* Record of the first message in the bytes: feed the message once the record is durable. The status is ZVT_WHOLE, ZVT_MORE or
 * ZVT_REFUSED. */
struct Heard {
    std::string record;
    zvt_answer answer{};
};
inline Heard record_heard(const uint8_t *bytes, size_t length) {
    std::vector<uint8_t> room(ZVT_RECORD_ROOM);
    Heard heard;
    size_t size = zvt_record_heard(bytes, length, room.data(), room.size(), &heard.answer);
    if (heard.answer.status == ZVT_NO_MEMORY) check(ZVT_NO_MEMORY);
    heard.record.assign(room.begin(), room.begin() + size);
    return heard;
}

/* Thrown if a text is not a journal from which a till can be restored. */
class BadJournal : public Refused {
public:
    explicit BadJournal(const zvt_answer &answer) : Refused(answer.status), reason(answer.reason), place(answer.place) {}
    const uint32_t reason; /* ZVT_WRONG_OPENING .. ZVT_WRONG_CHECK */
    const uint64_t place;
};

/* The notes of a till's payments, in the order of Till::book and Till::unclear. */
struct Notes {
    std::vector<Note> booked, unclear;
};

/* A till. You can move it but not copy it. Only one thread at a time may use it. */
class Till {
public:
    explicit Till(uint32_t password = 0, uint8_t config = 0xBE, uint16_t currency = 978) {
        if (zvt_abi() != ZVT_ABI) throw std::runtime_error("zvt: the library " + version() + " is not the one that zvt.h is of");
        check(zvt_till_new(&handle, password, config, currency));
    }
    static Till loaded(const std::vector<uint8_t> &saved) {
        Till till;
        check(zvt_till_load(&till.handle, saved.data(), saved.size()));
        return till;
    }
    /* Restores the till of a journal, with the settings of this till. */
    void recover(const std::string &text) {
        zvt_answer answer{};
        zvt_till_recover(&handle, bytes_of(text), text.size(), &answer);
        if (answer.status == ZVT_REFUSED) throw BadJournal(answer);
        check(answer.status);
    }
    /* The times and references of the payments in the text of a journal, with the settings of this till. */
    Notes notes(const std::string &text) {
        std::string lines;
        zvt_answer answer{};
        do {
            lines.resize(answer.size);
            zvt_record_notes(&handle, bytes_of(text), text.size(), reinterpret_cast<uint8_t *>(lines.data()), lines.size(), &answer);
            if (answer.status == ZVT_REFUSED) throw BadJournal(answer);
            check(answer.status);
        } while (answer.size != lines.size());
        Notes notes;
        std::istringstream all(lines);
        for (std::string line; std::getline(all, line);) {
            std::istringstream words(line);
            std::string kind, key, word;
            Note note;
            words >> kind;
            while (words >> key >> word) (key == "at" ? note.at : note.reference) = word;
            (kind == "booked" ? notes.booked : notes.unclear).push_back(std::move(note));
        }
        return notes;
    }
    /* ZVT_AS_SENT, or the code page of the lines to print, which are then UTF-8. */
    uint32_t codepage = ZVT_AS_SENT;

    Till(Till &&other) noexcept : codepage(other.codepage), handle(std::exchange(other.handle, zvt_till{})), line(std::move(other.line)) {}
    Till &operator=(Till &&other) noexcept {
        std::swap(codepage, other.codepage);
        std::swap(handle, other.handle);
        std::swap(line, other.line);
        return *this;
    }
    Till(const Till &) = delete;
    Till &operator=(const Till &) = delete;
    ~Till() { zvt_till_free(&handle); }

    void connected() { check(zvt_till_connected(&handle)); }
    zvt_outcome lost() {
        zvt_step step{};
        check(zvt_till_lost(&handle, &step));
        return step.outcome;
    }
    /* Returns the bytes to send. Save the till before you send them. */
    std::vector<uint8_t> order(uint32_t order, uint64_t number = 0) {
        uint8_t out[ZVT_ROOM];
        zvt_step step{};
        check(zvt_till_order(&handle, order, number, out, sizeof out, &step));
        return {out, out + step.send};
    }
    /* Asks the terminal to repeat its last receipt, and returns the bytes to send. The ask has ended once state().running is
     * no longer ZVT_ASK; settled() then has what it settled, if anything. */
    std::vector<uint8_t> ask() {
        uint8_t out[ZVT_ROOM];
        zvt_step step{};
        check(zvt_till_ask(&handle, out, sizeof out, &step));
        return {out, out + step.send};
    }
    /* Reads what the terminal sent, up to the first invalid byte. */
    Reply feed(const uint8_t *piece, size_t length) {
        Reply reply;
        uint8_t out[8 * ZVT_ROOM];
        while (reply.taken < length && reply.status == ZVT_OK) {
            zvt_step step{};
            reply.status = zvt_till_feed_all(&handle, piece + reply.taken, length - reply.taken, out, sizeof out, line.data(), line.size(), &step);
            if (reply.status != ZVT_REFUSED && reply.status != ZVT_NO_MEMORY) check(reply.status);
            reply.send.insert(reply.send.end(), out, out + step.send);
            if (step.printed) print(reply);
            if (step.outcome.kind != ZVT_NONE) reply.outcome = step.outcome;
            reply.taken += step.taken;
        }
        return reply;
    }
    /* The name and the masked number of the card of the last order. Empty if the terminal named none. */
    std::string card_name() { return written(zvt_till_card_name); }
    std::string card_number() { return written(zvt_till_card_number); }
    zvt_state state() {
        zvt_state state{};
        check(zvt_till_state(&handle, &state));
        return state;
    }
    /* A booked payment. `doubt` says whether its reversal is unclear; state().unclear_reversals counts the unclear ones. */
    std::vector<zvt_entry> book() { return entries(state().booked, zvt_till_entry); }
    std::vector<zvt_entry> unclear() { return entries(state().unclear, zvt_till_unclear); }
    /* What the answers to asks settled, in their order. */
    std::vector<zvt_settlement> settled() { return entries(state().settled, zvt_till_settled); }
    /* The unclear order that the next answer can settle, and whether the terminal's last status is known. */
    zvt_pending pending() {
        zvt_pending pending{};
        check(zvt_till_pending(&handle, &pending));
        return pending;
    }
    std::vector<uint8_t> save() {
        std::vector<uint8_t> bytes;
        zvt_answer answer{};
        do {
            bytes.resize(answer.size);
            zvt_till_save(&handle, bytes.data(), bytes.size(), &answer);
            check(answer.status);
        } while (answer.size != bytes.size());
        return bytes;
    }

private:
    /* Adds the lines that the last message has to print. */
    void print(Reply &reply) {
        zvt_line one{};
        for (size_t place = 0; reply.status == ZVT_OK;) {
            const uint32_t status = zvt_till_line(&handle, place, codepage, line.data(), line.size(), &one);
            if (status == ZVT_ARGUMENT) return;
            if (status != ZVT_OK) reply.status = status;
            else if (one.size > line.size()) line.resize(one.size);
            else reply.lines.push_back({{line.begin(), line.begin() + one.size}, one.copy}), place++;
        }
    }
    std::string written(size_t (*write)(zvt_till *, uint8_t *, size_t)) {
        uint8_t room[ZVT_CARD_ROOM];
        return {room, room + write(&handle, room, sizeof room)};
    }
    template <typename Entry> std::vector<Entry> entries(uint64_t count, uint32_t (*show)(zvt_till *, size_t, Entry *)) {
        std::vector<Entry> entries(count);
        for (uint64_t place = 0; place < count; place++) check(show(&handle, place, &entries[place]));
        return entries;
    }
    zvt_till handle{};
    std::vector<uint8_t> line = std::vector<uint8_t>(ZVT_LINE_ROOM);
};

}
#endif
