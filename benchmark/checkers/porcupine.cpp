// Porcupine's algorithm for histories of a key-value store: Wing and Gong's search (1993) with Lowe's cache of
// configurations (2017), a partition for each key. Reads the lines that 'judge keys' reads, without a check of their
// form, and writes `legal` or `illegal part KEY`.
#include <algorithm>
#include <cstdint>
#include <cstdio>
#include <iostream>
#include <limits>
#include <string>
#include <unordered_map>
#include <vector>

namespace {

using Word = std::uint32_t;
using Time = std::uint64_t;

// Words as numbers: equal numbers stand for equal words.
struct Words {
    std::unordered_map<std::string, Word> numbers;
    std::vector<std::string> texts;

    Word number(const std::string &text) {
        auto [found, is_new] = numbers.emplace(text, texts.size());
        if (is_new) texts.push_back(text);
        return found->second;
    }
};

Words words;
const Word MISSING = words.number("-"), OK = words.number("ok"), TRUE = words.number("true");
const Word FALSE = words.number("false"), UNKNOWN = words.number("?");

enum class Kind { get, put, del, cas, append, put_if_absent, get_and_set };

const std::unordered_map<std::string, Kind> KINDS = {
    {"get", Kind::get}, {"put", Kind::put}, {"delete", Kind::del}, {"cas", Kind::cas}, {"append", Kind::append},
    {"put-if-absent", Kind::put_if_absent}, {"get-and-set", Kind::get_and_set}};

struct Call {
    Kind kind;
    Word first, second, reply;
    Time begin, end;
};

// What the key has after a call, and whether the call may have its reply.
bool step(Word held, const Call &call, Word &after) {
    Word reply = OK;
    after = call.first;
    switch (call.kind) {
    case Kind::get: reply = after = held; break;
    case Kind::put: break;
    case Kind::del: after = MISSING; break;
    case Kind::cas: reply = held == call.first ? TRUE : FALSE, after = reply == TRUE ? call.second : held; break;
    case Kind::put_if_absent: reply = held == MISSING ? TRUE : FALSE, after = reply == TRUE ? call.first : held; break;
    case Kind::get_and_set: reply = held; break;
    case Kind::append:
        if (held != MISSING) {
            const std::string &text = words.texts[held];
            after = words.number(text.substr(0, text.size() - 1) + words.texts[call.first].substr(1));
        }
    }
    return call.reply == UNKNOWN || call.reply == reply;
}

// An event of a call in a list: its begin, with its end beside it, or its end.
struct Event {
    std::uint32_t call;
    Event *end, *before, *after;

    void take_out() { before->after = after; if (after) after->before = before; }
    void put_back() { before->after = this; if (after) after->before = this; }
};

// A configuration: the calls that have a place, and what the key has.
struct Configuration {
    std::vector<std::uint64_t> placed;
    Word held;

    bool operator==(const Configuration &other) const { return held == other.held && placed == other.placed; }
};

struct Hash {
    std::size_t operator()(const Configuration &one) const {
        std::uint64_t hash = one.held * 0x2545f4914f6cdd1dull;
        for (std::uint64_t bits : one.placed) hash = (hash ^ bits) * 0x9e3779b97f4a7c15ull, hash ^= hash >> 29;
        return hash;
    }
};

// Whether the calls of a key have a linearization.
bool is_linearizable(const std::vector<Call> &calls) {
    struct Moment { Time time; bool is_end; std::uint32_t call; };
    std::vector<Moment> moments;
    for (std::uint32_t i = 0; i < calls.size(); ++i) {
        moments.push_back({calls[i].begin, false, i});
        moments.push_back({calls[i].end, true, i});
    }
    std::sort(moments.begin(), moments.end(), [](const Moment &a, const Moment &b) {
        return a.time != b.time ? a.time < b.time : a.is_end < b.is_end; });
    std::vector<Event> events(moments.size() + 1);
    std::vector<Event *> begins(calls.size());
    std::size_t pending = 0, answered = calls.size();
    for (const Call &call : calls) pending += call.reply == UNKNOWN;
    answered -= pending;
    for (std::size_t i = 0; i < moments.size(); ++i) {
        events[i] = {moments[i].call, nullptr, nullptr, &events[i + 1]};
        events[i + 1] = {0, nullptr, &events[i], nullptr};
    }
    Event &head = events.back();
    head = {0, nullptr, nullptr, moments.empty() ? nullptr : &events[0]};
    for (std::size_t i = 0; i < moments.size(); ++i) {
        events[i].before = i ? &events[i - 1] : &head;
        if (i + 1 == moments.size()) events[i].after = nullptr;
        if (moments[i].is_end) begins[moments[i].call]->end = &events[i];
        else begins[moments[i].call] = &events[i];
    }
    std::unordered_map<Configuration, bool, Hash> known;
    std::vector<std::pair<Event *, Word>> path;
    Configuration here{std::vector<std::uint64_t>((calls.size() + 63) / 64), MISSING};
    for (Event *event = head.after; answered > 0;) {
        const std::uint32_t i = event->call;
        Word after;
        if (event->end && step(here.held, calls[i], after)) {
            const Word held = here.held;
            here.placed[i / 64] |= 1ull << i % 64;
            here.held = after;
            if (known.emplace(here, true).second) {
                path.push_back({event, held});
                event->take_out();
                event->end->take_out();
                answered -= calls[i].reply != UNKNOWN;
                event = head.after;
                continue;
            }
            here.placed[i / 64] &= ~(1ull << i % 64);
            here.held = held;
        }
        if (event->end && event->after) {
            event = event->after;
            continue;
        }
        if (path.empty()) return false;
        event = path.back().first;
        here.held = path.back().second;
        path.pop_back();
        here.placed[event->call / 64] &= ~(1ull << event->call % 64);
        answered += calls[event->call].reply != UNKNOWN;
        event->end->put_back();
        event->put_back();
        event = event->after;
    }
    return true;
}

std::vector<std::string> cut(const std::string &line) {
    std::vector<std::string> found;
    std::size_t from = 0;
    for (std::size_t to; (to = line.find(' ', from)) != std::string::npos; from = to + 1)
        found.push_back(line.substr(from, to - from));
    found.push_back(line.substr(from));
    return found;
}

} // namespace

int main() {
    std::ios::sync_with_stdio(false);
    std::unordered_map<std::string, std::vector<Call>> parts;
    for (std::string line; std::getline(std::cin, line);) {
        const std::vector<std::string> parts_of = cut(line);
        const std::size_t count = parts_of.size();
        const Time end = parts_of[2] == "-" ? std::numeric_limits<Time>::max() : std::stoull(parts_of[2]);
        parts[parts_of[4]].push_back({KINDS.at(parts_of[3]), count > 7 ? words.number(parts_of[5]) : MISSING,
                                      count > 8 ? words.number(parts_of[6]) : MISSING, words.number(parts_of[count - 1]),
                                      std::stoull(parts_of[1]), end});
    }
    std::vector<std::string> wrong;
    for (const auto &[key, calls] : parts)
        if (!is_linearizable(calls)) wrong.push_back(key);
    if (wrong.empty()) std::puts("legal");
    else std::printf("illegal part %s\n", std::min_element(wrong.begin(), wrong.end())->c_str());
    return wrong.empty() ? 0 : 1;
}
