// How many attempts a client's calls took, and by which conflicts those that failed ended.
#pragma once

#include "heap.hpp"

#include <array>
#include <optional>
#include <string>
#include <string_view>

namespace vacation {

// A runtime names its conflicts: `CONFLICTS`, an array of names, at most so many. One that sees
// none of its conflicts has `NO_CONFLICTS`.
constexpr std::size_t MOST_CONFLICTS = 8;
constexpr std::array<std::string_view, 0> NO_CONFLICTS{};

// Where in the heap a conflict was: at the root of a table, the head of a free list, or in a block:
// words 0 to 3 (a node, or a booking's kind, item, sum and next), word 4 (an item's used units, a
// customer's bookings, a booking's units), or words 5 to 7 (an item's free units, units and price).
constexpr std::array<std::string_view, 5> PART_NAMES{"roots", "heads", "nodes", "uses", "stocks"};

inline unsigned part_of(Addr addr)
{
    if (addr < FIRST_BLOCK)
        return addr < FIRST_HEAD ? 0 : 1;
    const Addr word = addr % BLOCK_WORDS;
    return word < 4 ? 2 : word == 4 ? 3 : 4;
}

constexpr Word MOST_ABANDONED_IN_TURN = 3;

struct Attempts {
    Word begun = 0;
    // Those that the driver ended, because what they had read was of no one state of the heap.
    Word abandoned = 0;
    // One call was abandoned so often in turn that the heap itself must be broken: its client does no
    // more.
    bool is_lost = false;
    std::array<Word, MOST_CONFLICTS> conflicts{};
    std::array<Word, PART_NAMES.size()> parts{};

    // The address is that of the word, or of the stripe, where there is one.
    void count(unsigned conflict, std::optional<Addr> addr)
    {
        ++conflicts[conflict];
        if (addr)
            ++parts[part_of(*addr)];
    }

    Attempts& operator+=(const Attempts& other)
    {
        begun += other.begun;
        abandoned += other.abandoned;
        for (std::size_t i = 0; i < conflicts.size(); ++i)
            conflicts[i] += other.conflicts[i];
        for (std::size_t i = 0; i < parts.size(); ++i)
            parts[i] += other.parts[i];
        return *this;
    }
};

template <class Names, class Counts>
void append_counts(std::string& text, const Names& names, const Counts& counts)
{
    for (std::size_t i = 0; i < names.size(); ++i)
        text.append(" ").append(names[i]).append(" ").append(std::to_string(counts[i]));
}

template <class Names>
std::string text_of(const Attempts& attempts, const Names& names)
{
    static_assert(std::tuple_size<Names>::value <= MOST_CONFLICTS);
    std::string text = "attempts " + std::to_string(attempts.begun);
    append_counts(text, names, attempts.conflicts);
    if (!names.empty())
        append_counts(text, PART_NAMES, attempts.parts);
    if (attempts.abandoned != 0)
        text.append(" abandoned ").append(std::to_string(attempts.abandoned));
    return text;
}

} // namespace vacation
