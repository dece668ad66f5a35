// The tasks of a load, drawn as `vacation load` and `vacation tasks` draw them: the same words of
// the generator make the same tasks.
#pragma once

#include "lines.hpp"
#include "pcg.hpp"
#include "task.hpp"

#include <array>
#include <cstdint>
#include <string>

namespace vacation {

// The options of the program by these names, and their defaults.
struct Settings {
    std::uint64_t clients = 4;
    std::uint64_t tasks = 100;
    std::uint64_t items = 16;
    std::uint64_t asks = 4;
    std::uint64_t reads = 0;
    std::uint64_t user = 80;
    std::uint64_t seed = 1;
};

// The tasks of one client, from a stream of its own: client 0 opens the system.
class TaskDraws {
public:
    TaskDraws(const Settings& settings, std::uint32_t client)
        : draws_(settings.seed, client), items_(static_cast<std::uint32_t>(settings.items)),
          asks_(static_cast<std::uint32_t>(settings.asks)),
          reads_(static_cast<std::uint32_t>(settings.reads)),
          user_(static_cast<std::uint32_t>(settings.user))
    {
    }

    // The next task of a client that is not the opening. It is there until the next one is drawn.
    const Task& next()
    {
        if (reads_ != 0 && below(PERCENT) < reads_)
            draw_question();
        else
            draw_work();
        return task_;
    }

    // The command of the opening that adds the item of this id and kind.
    const Task& next_stock(Kind kind, std::uint32_t id)
    {
        const std::uint32_t num = up_to(LEVELS) * UNITS;
        set_one({Verb::Add, kind, id, num, price()});
        return task_;
    }

    // That which adds a customer: nothing is drawn for it.
    const Task& customer(std::uint32_t id)
    {
        set_one({Verb::NewCustomer, Kind::Car, id, 0, NO_PRICE});
        return task_;
    }

private:
    static constexpr std::uint32_t PERCENT = 100;
    // The units that an opening adds an item in, and that a change adds or deletes.
    static constexpr std::uint32_t UNITS = 100;
    // How many prices there are, and how many amounts of units.
    static constexpr std::uint32_t LEVELS = 5;
    static constexpr std::uint32_t PRICE_STEP = 10, LOWEST_PRICE = 50;

    std::uint32_t below(std::uint32_t n) { return draws_.next() % n; }
    std::uint32_t up_to(std::uint32_t n) { return below(n) + 1; }
    Kind kind() { return static_cast<Kind>(below(KINDS)); }
    std::uint32_t price() { return below(LEVELS) * PRICE_STEP + LOWEST_PRICE; }

    Command ask(Verb verb)
    {
        const Kind asked = kind();
        return {verb, asked, up_to(items_), 0, NO_PRICE};
    }

    Command change()
    {
        const Kind changed = kind();
        const std::uint32_t id = up_to(items_);
        if (below(2) == 1)
            return {Verb::Add, changed, id, UNITS, price()};
        if (changed == Kind::Flight)
            return {Verb::DropFlight, changed, id, 0, NO_PRICE};
        return {Verb::Delete, changed, id, UNITS, NO_PRICE};
    }

    void set_one(const Command& command)
    {
        parts_[0] = command;
        task_ = {Form::One, 1, 0, parts_.data()};
    }

    void draw_question()
    {
        const std::uint32_t number = below(PERCENT);
        if (number == 0)
            set_one({Verb::Audit, Kind::Car, 0, 0, NO_PRICE});
        else if (number % 3 == 0)
            set_one({Verb::Bill, Kind::Car, up_to(items_), 0, NO_PRICE});
        else
            set_one(ask(number % 3 == 1 ? Verb::Free : Verb::Price));
    }

    void draw_work()
    {
        const std::uint32_t number = below(PERCENT);
        if (number < user_)
            draw_trip();
        else if (number % 2 == 1)
            task_ = {Form::Leave, 0, up_to(items_), parts_.data()};
        else
            draw_update();
    }

    void draw_trip()
    {
        const std::uint32_t count = up_to(asks_);
        const std::uint32_t customer = up_to(items_);
        for (std::uint32_t i = 0; i < count; ++i)
            parts_[i] = ask(Verb::Ask);
        task_ = {Form::Trip, static_cast<std::uint8_t>(count), customer, parts_.data()};
    }

    void draw_update()
    {
        const std::uint32_t count = up_to(asks_);
        for (std::uint32_t i = 0; i < count; ++i)
            parts_[i] = change();
        task_ = {Form::Update, static_cast<std::uint8_t>(count), 0, parts_.data()};
    }

    Draws draws_;
    std::uint32_t items_, asks_, reads_, user_;
    std::array<Command, MOST_PARTS> parts_;
    Task task_;
};

// ---- as `vacation tasks` writes them

inline void append_drawn(std::string& text, std::uint32_t client, const Task& task)
{
    text.append(std::to_string(client)).append(" ").append(line_of(task)).append("\n");
}

inline std::string drawn_opening(const Settings& settings)
{
    std::string text;
    TaskDraws draws(settings, 0);
    for (std::uint32_t id = 1; id <= settings.items; ++id)
        for (unsigned kind = 0; kind < KINDS; ++kind)
            append_drawn(text, 0, draws.next_stock(static_cast<Kind>(kind), id));
    for (std::uint32_t id = 1; id <= settings.items; ++id)
        append_drawn(text, 0, draws.customer(id));
    return text;
}

inline std::string drawn_tasks(const Settings& settings)
{
    std::string text;
    for (std::uint32_t client = 1; client <= settings.clients; ++client) {
        TaskDraws draws(settings, client);
        for (std::uint64_t number = 0; number < settings.tasks; ++number)
            append_drawn(text, client, draws.next());
    }
    return text;
}

} // namespace vacation
