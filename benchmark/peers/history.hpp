// The history of a run: a line `CLIENT BEGIN END LINE -> REPLY` for each call that was answered,
// in an order in which the calls can be said to have taken effect one after the other.
#pragma once

#include "lines.hpp"
#include "watch.hpp"
#include "workload.hpp"

#include <algorithm>
#include <cstdio>
#include <string>
#include <vector>

namespace vacation {

// A call of a client. While it is pending, only its beginning and its task are there.
struct Answered {
    Word place;
    Word begin, end;
    const Call* call;
    Reply reply;
};

struct HistoryLine {
    std::uint32_t client;
    const Answered* answered;
};

// By place, which is the order in which the runtime says that the calls took effect. Calls of one
// place do not depend on each other's order; they stand by their beginning, so that none stands
// before one that had ended before it began, and those of one client as the client made them.
inline void sort_history(std::vector<HistoryLine>& lines)
{
    std::stable_sort(lines.begin(), lines.end(), [](const HistoryLine& a, const HistoryLine& b) {
        if (a.answered->place != b.answered->place)
            return a.answered->place < b.answered->place;
        return a.answered->begin < b.answered->begin;
    });
}

inline void print_history(std::vector<HistoryLine>& lines)
{
    sort_history(lines);
    for (const HistoryLine& line : lines) {
        const Answered& answered = *line.answered;
        std::string text = std::to_string(line.client) + ' ' + std::to_string(answered.begin) +
                           ' ' + std::to_string(answered.end) + ' ';
        text.append(answered.call->line).append(" -> ");
        text.append(text_of(answered.call->task, answered.reply)).append("\n");
        std::fwrite(text.data(), 1, text.size(), stdout);
    }
}

// A call that the clients' end cut short: it may have taken effect, so that others have seen it.
inline void print_pending(std::uint32_t client, const Answered& pending)
{
    std::printf("%u %llu - %.*s -> ?\n", client, static_cast<unsigned long long>(pending.begin),
                static_cast<int>(pending.call->line.size()), pending.call->line.data());
}

// ---- attempts

// A line of an attempt as its client wrote it: `PLACE BEGIN TEXT`.
struct AttemptLine {
    Word place, begin;
    std::string_view text;
};

// The lines of a client's file. What a client that crashed has left unfinished is no line.
inline void read_attempts(std::string_view rest, std::vector<AttemptLine>& lines)
{
    for (std::size_t end; (end = rest.find('\n')) != std::string_view::npos;) {
        const std::string_view line = rest.substr(0, end);
        const std::size_t first = line.find(' '), second = line.find(' ', first + 1);
        AttemptLine found{0, 0, line.substr(second + 1)};
        std::from_chars(line.data(), line.data() + first, found.place);
        std::from_chars(line.data() + first + 1, line.data() + second, found.begin);
        lines.push_back(found);
        rest.remove_prefix(end + 1);
    }
}

// The words that are not 0 at the beginning, as attempts of client 0 that write them.
inline void print_first_words(const Words& words)
{
    constexpr unsigned MOST_WRITES = 10'000;
    unsigned writes = 0;
    for (std::size_t addr = 0; addr < words.size(); ++addr) {
        if (words[addr] == 0)
            continue;
        if (writes % MOST_WRITES == 0)
            std::fputs(writes == 0 ? "0 0 0 commit" : "\n0 0 0 commit", stdout);
        ++writes;
        std::printf(" w %zu %llu", addr, static_cast<unsigned long long>(words[addr]));
    }
    std::fputs("\n", stdout);
}

// The attempts of all clients by their places, as the calls of a history are.
inline void print_attempts(const Words& words, const std::vector<std::string>& files)
{
    std::vector<AttemptLine> lines;
    for (const std::string& file : files)
        read_attempts(file, lines);
    std::stable_sort(lines.begin(), lines.end(), [](const AttemptLine& a, const AttemptLine& b) {
        return a.place != b.place ? a.place < b.place : a.begin < b.begin;
    });
    print_first_words(words);
    for (const AttemptLine& line : lines) {
        std::fwrite(line.text.data(), 1, line.text.size(), stdout);
        std::fputc('\n', stdout);
    }
}

} // namespace vacation
