// Tasks of the reservation system, and what is answered to them.
#pragma once

#include "heap.hpp"

#include <algorithm>
#include <array>
#include <cstdint>

namespace vacation {

enum class Kind : std::uint8_t { Car, Flight, Room };
constexpr unsigned KINDS = 3;

// Whether a command was done, or why it was refused.
enum class Outcome : std::uint8_t {
    Done = 0,
    NeedsCountAndPrice = 1,
    TotalLimit = 2,
    Full = 3,
    NoItem = 4,
    NotFree = 5,
    InUse = 6,
    Exists = 7,
    NoCustomer = 8,
    SoldOut = 9,
    NotBooked = 11,
    UnitLimit = 12,
    // No command was given at all.
    NotAsked = 255,
};

constexpr std::uint32_t MOST_AMOUNT = 1'000'000;
constexpr std::uint32_t MOST_UNITS_AT_ONCE = 100;
constexpr Word MOST_TOTAL = 1'000'000'000;
constexpr Word MOST_UNITS = 10'000;
constexpr unsigned MOST_PARTS = 32;

enum class Verb : std::uint8_t {
    Add,
    Delete,
    DropFlight,
    NewCustomer,
    DropCustomer,
    Free,
    Price,
    Bill,
    Reserve,
    Cancel,
    Audit,
    // One item that a trip asks for.
    Ask,
};

constexpr std::uint32_t NO_PRICE = UINT32_MAX;

// One command, or one ask of a trip. `id` is the item's, or the customer's where no item is named.
struct Command {
    Verb verb;
    Kind kind;
    std::uint32_t id;
    std::uint32_t num;
    std::uint32_t price;
};

enum class Form : std::uint8_t { One, Trip, Leave, Update };

// Its parts (the one command, the asks, the changes) stand elsewhere.
struct Task {
    Form form;
    std::uint8_t len;
    // Of a trip, a leave, a reservation and a cancellation.
    std::uint32_t customer;
    const Command* parts;
};

PRIVATE_TO_THREAD inline Form form_of(const Task& task) { return task.form; }
PRIVATE_TO_THREAD inline unsigned len_of(const Task& task) { return task.len; }
PRIVATE_TO_THREAD inline std::uint32_t customer_of(const Task& task) { return task.customer; }
PRIVATE_TO_THREAD inline const Command* parts_of(const Task& task) { return task.parts; }

PRIVATE_TO_THREAD inline Verb verb_of(const Command* command) { return command->verb; }
PRIVATE_TO_THREAD inline Kind kind_of(const Command* command) { return command->kind; }
PRIVATE_TO_THREAD inline std::uint32_t id_of(const Command* command) { return command->id; }
PRIVATE_TO_THREAD inline std::uint32_t num_of(const Command* command) { return command->num; }
PRIVATE_TO_THREAD inline std::uint32_t price_of(const Command* command) { return command->price; }

struct Report {
    Word cars, flights, rooms, customers, bookings;
    Word used, free, total, billed;
};

constexpr Word NO_NUMBER = UINT64_MAX;

// The reply to a task. Which parts of it count follows from the task.
class Reply {
public:
    struct Pick {
        Outcome outcome;
        std::uint32_t id;
    };

    PRIVATE_TO_THREAD void set_outcome(Outcome outcome) { outcomes_[0] = outcome; }
    PRIVATE_TO_THREAD void set_number(Word number) { number_ = number; }
    PRIVATE_TO_THREAD void set_report(const Report& report) { report_ = report; }
    // Of a trip that found nothing.
    PRIVATE_TO_THREAD void set_no_trip()
    {
        joined_ = Outcome::NotAsked;
        std::fill_n(outcomes_.begin(), KINDS, Outcome::NotAsked);
    }
    PRIVATE_TO_THREAD void set_joined(Outcome joined) { joined_ = joined; }
    PRIVATE_TO_THREAD void set_pick(unsigned kind, Outcome outcome, std::uint32_t id)
    {
        outcomes_[kind] = outcome;
        ids_[kind] = id;
    }
    PRIVATE_TO_THREAD void set_change(unsigned i, Outcome outcome) { outcomes_[i] = outcome; }

    // The outcome of the one command, or of a change.
    Outcome outcome(unsigned i = 0) const { return outcomes_[i]; }
    // Free units, a price or a bill; `NO_NUMBER` for none.
    Word number() const { return number_; }
    const Report& report() const { return report_; }
    Outcome joined() const { return joined_; }
    Pick pick(unsigned kind) const { return {outcomes_[kind], ids_[kind]}; }

private:
    std::array<Outcome, MOST_PARTS> outcomes_;
    std::array<std::uint32_t, KINDS> ids_;
    Outcome joined_;
    Word number_;
    Report report_;
};

} // namespace vacation
