// The command line of a peer.
#pragma once

#include "draws.hpp"
#include "heap.hpp"
#include "task.hpp"

#include <charconv>
#include <cstdint>
#include <optional>
#include <string_view>

namespace vacation {

struct Options {
    std::uint64_t blocks = 1024;
    std::uint64_t tries = 64;
    // The run ends where a client ends no call for so many seconds.
    std::uint64_t patience = 60;
    // Draws pauses between steps; 0: none.
    std::uint64_t jitter = 0;
    bool history = false;
    bool attempts = false;
    // Each client draws its tasks itself, one before each call, in place of reading them.
    bool draw = false;
    // The drawn tasks are written, and no more is done.
    bool print = false;
    Settings drawn;
    // What the usage names between the program and its options.
    const char* operand = "";

    // The accesses of attempts are looked at, except in runs that are measured.
    bool is_watched() const { return history || attempts || jitter != 0; }
};

constexpr char USAGE[] =
    "usage: %s%s [--blocks N] [--tries N] [--patience SECONDS] [--jitter SEED]\n"
    "    [--history | --attempts] < TASKS\n"
    "or, with tasks that each client draws, or that are only written, in place of TASKS:\n"
    "    .. --draw | --print [--clients N] [--tasks N] [--items N] [--asks N] [--reads P]\n"
    "    [--user P] [--seed S]\n";

// The status of a run that was ended because something stood still.
constexpr int STOOD_STILL = 3;

constexpr std::uint64_t MOST_CLIENTS = 64;
constexpr std::uint64_t MOST_TASKS = 1'000'000;
constexpr std::uint64_t MOST_ITEMS = 65'536;
constexpr std::uint64_t PERCENT = 100;

// An option with a number, of all runs or of what is drawn.
template <class Owner>
struct NumberOption {
    std::string_view name;
    std::uint64_t Owner::*value;
    std::uint64_t least, most;
};

constexpr NumberOption<Options> NUMBER_OPTIONS[] = {
    {"--blocks", &Options::blocks, 1, MOST_BLOCKS},
    {"--tries", &Options::tries, 1, 1u << 20},
    {"--patience", &Options::patience, 1, 3600},
    {"--jitter", &Options::jitter, 1, UINT64_MAX},
};

constexpr NumberOption<Settings> DRAWN_OPTIONS[] = {
    {"--clients", &Settings::clients, 1, MOST_CLIENTS},
    {"--tasks", &Settings::tasks, 1, MOST_TASKS},
    {"--items", &Settings::items, 1, MOST_ITEMS},
    {"--asks", &Settings::asks, 1, MOST_PARTS},
    {"--reads", &Settings::reads, 0, PERCENT},
    {"--user", &Settings::user, 0, PERCENT},
    {"--seed", &Settings::seed, 0, UINT64_MAX},
};

struct Flag {
    std::string_view name;
    bool Options::*value;
};

constexpr Flag FLAGS[] = {
    {"--history", &Options::history},
    {"--attempts", &Options::attempts},
    {"--draw", &Options::draw},
    {"--print", &Options::print},
};

inline std::optional<std::uint64_t> number_in(std::string_view text, std::uint64_t least,
                                              std::uint64_t most)
{
    std::uint64_t value = 0;
    const auto [end, error] = std::from_chars(text.data(), text.data() + text.size(), value);
    if (error != std::errc{} || end != text.data() + text.size() || value < least || value > most)
        return std::nullopt;
    return value;
}

// Takes the value of an option that is one of these. False: it is none, or its value is none.
template <class Owner, std::size_t N>
bool take_number(Owner& owner, const NumberOption<Owner> (&options)[N], std::string_view name,
                 std::string_view text)
{
    for (const NumberOption<Owner>& option : options) {
        if (name != option.name)
            continue;
        const auto value = number_in(text, option.least, option.most);
        if (value)
            owner.*option.value = *value;
        return value.has_value();
    }
    return false;
}

inline bool take_flag(Options& options, std::string_view name)
{
    for (const Flag& flag : FLAGS) {
        if (name == flag.name)
            return options.*flag.value = true;
    }
    return false;
}

inline std::optional<Options> read_options(int count, char** words, Options options)
{
    bool has_drawn = false;
    for (int i = 1; i < count; ++i) {
        const std::string_view name = words[i];
        if (take_flag(options, name))
            continue;
        const std::string_view text = ++i < count ? words[i] : "";
        if (take_number(options.drawn, DRAWN_OPTIONS, name, text))
            has_drawn = true;
        else if (!take_number(options, NUMBER_OPTIONS, name, text))
            return std::nullopt;
    }
    const bool draws = options.draw || options.print;
    const bool fits = 4 * options.drawn.items <= options.blocks;
    if ((options.history && options.attempts) || (has_drawn && !draws) || (draws && !fits))
        return std::nullopt;
    return options;
}

} // namespace vacation
