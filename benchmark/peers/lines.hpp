// Reading tasks from lines, the lines of those that are drawn, and the texts of replies
// (docs/RULES.md, section 5).
#pragma once

#include "task.hpp"

#include <array>
#include <charconv>
#include <optional>
#include <stdexcept>
#include <string>
#include <string_view>
#include <vector>

namespace vacation {

constexpr std::array<std::string_view, KINDS> KIND_NAMES{"car", "flight", "room"};

// Takes the words of a line one by one, each up to a space or the end.
class LineReader {
public:
    explicit LineReader(std::string_view rest) : rest_(rest) {}

    bool is_at_end() const { return rest_.empty(); }
    std::string_view rest() const { return rest_; }

    std::string_view word()
    {
        const std::size_t end = rest_.find(' ');
        const std::string_view word = rest_.substr(0, end);
        rest_.remove_prefix(end == std::string_view::npos ? rest_.size() : end + 1);
        return word;
    }

    // Numbers; a word that is none in this range makes the line one that cannot be read.
    std::uint32_t id() { return number(1, UINT32_MAX); }
    std::uint32_t amount() { return number(0, MOST_AMOUNT); }
    std::uint32_t units() { return number(1, MOST_UNITS_AT_ONCE); }

    std::uint32_t price()
    {
        if (rest_.substr(0, rest_.find(' ')) != "-")
            return amount();
        word();
        return NO_PRICE;
    }

    Kind kind()
    {
        const std::string_view text = word();
        for (unsigned kind = 0; kind < KINDS; ++kind)
            if (text == KIND_NAMES[kind])
                return static_cast<Kind>(kind);
        failed_ = true;
        return Kind::Car;
    }

    void fail() { failed_ = true; }
    bool failed() const { return failed_; }

private:
    std::uint32_t number(std::uint32_t least, std::uint32_t most)
    {
        const std::string_view text = word();
        std::uint32_t value = 0;
        const auto [end, error] = std::from_chars(text.data(), text.data() + text.size(), value);
        const bool is_number = error == std::errc{} && end == text.data() + text.size();
        if (!is_number || value < least || value > most)
            failed_ = true;
        return value;
    }

    std::string_view rest_;
    bool failed_ = false;
};

// Reads an `add` or a `del`, from behind its first word.
inline Command read_change(LineReader& line, std::string_view verb)
{
    if (verb != "add" && verb != "del")
        line.fail();
    const bool adds = verb == "add";
    const Kind kind = line.kind();
    const std::uint32_t id = line.id();
    if (!adds && kind == Kind::Flight)
        return {Verb::DropFlight, kind, id, 0, NO_PRICE};
    const std::uint32_t num = line.amount();
    return {adds ? Verb::Add : Verb::Delete, kind, id, num, adds ? line.price() : NO_PRICE};
}

// Reads a command that is a task of its own, from behind its first word, and the customer of one
// that names a customer and an item.
inline Command read_command(LineReader& line, std::string_view verb, std::uint32_t& customer)
{
    constexpr Kind none = Kind::Car;
    if (verb == "newcust")
        return {Verb::NewCustomer, none, line.id(), 0, NO_PRICE};
    if (verb == "dropcust")
        return {Verb::DropCustomer, none, line.id(), 0, NO_PRICE};
    if (verb == "bill")
        return {Verb::Bill, none, line.id(), 0, NO_PRICE};
    if (verb == "audit")
        return {Verb::Audit, none, 0, 0, NO_PRICE};
    if (verb == "free" || verb == "price") {
        const Kind kind = line.kind();
        return {verb == "free" ? Verb::Free : Verb::Price, kind, line.id(), 0, NO_PRICE};
    }
    if (verb == "reserve" || verb == "cancel") {
        customer = line.id();
        const Kind kind = line.kind();
        const std::uint32_t id = line.id();
        const bool reserves = verb == "reserve";
        const std::uint32_t num = reserves && !line.is_at_end() ? line.units() : 1;
        return {reserves ? Verb::Reserve : Verb::Cancel, kind, id, num, NO_PRICE};
    }
    return read_change(line, verb);
}

// The task of a line; nothing is answered for a line that is none. The task's parts are put behind
// those that are there, and whoever keeps them tells it where they stand.
inline std::optional<Task> read_task(std::string_view text, std::vector<Command>& parts)
{
    LineReader line(text);
    const std::size_t before = parts.size();
    Task task{Form::One, 0, 0, nullptr};
    const std::string_view verb = line.word();
    if (verb == "trip") {
        task.form = Form::Trip;
        task.customer = line.id();
        do {
            const Kind kind = line.kind();
            parts.push_back({Verb::Ask, kind, line.id(), 0, NO_PRICE});
        } while (!line.is_at_end());
    } else if (verb == "leave") {
        task.form = Form::Leave;
        task.customer = line.id();
    } else if (verb == "update") {
        task.form = Form::Update;
        do
            parts.push_back(read_change(line, line.word()));
        while (!line.is_at_end() && line.word() == ";");
    } else {
        parts.push_back(read_command(line, verb, task.customer));
    }
    const std::size_t len = parts.size() - before;
    const bool is_cut = !text.empty() && text.back() == ' ';
    if (line.failed() || !line.is_at_end() || is_cut || len > MOST_PARTS)
        return std::nullopt;
    task.len = static_cast<std::uint8_t>(len);
    return task;
}

// ---- the line of a task that is drawn

inline std::string text_of(Kind kind, std::uint32_t id)
{
    return std::string(KIND_NAMES[static_cast<unsigned>(kind)]) + ' ' + std::to_string(id);
}

inline std::string line_of(const Command& command)
{
    const auto [verb, kind, id, num, price] = command;
    switch (verb) {
    case Verb::Add:
        return "add " + text_of(kind, id) + ' ' + std::to_string(num) + ' ' +
               (price == NO_PRICE ? "-" : std::to_string(price));
    case Verb::Delete:
        return "del " + text_of(kind, id) + ' ' + std::to_string(num);
    case Verb::DropFlight:
        return "del " + text_of(kind, id);
    case Verb::NewCustomer:
        return "newcust " + std::to_string(id);
    case Verb::DropCustomer:
        return "dropcust " + std::to_string(id);
    case Verb::Free:
        return "free " + text_of(kind, id);
    case Verb::Price:
        return "price " + text_of(kind, id);
    case Verb::Bill:
        return "bill " + std::to_string(id);
    case Verb::Audit:
        return "audit";
    case Verb::Ask:
        return text_of(kind, id);
    case Verb::Reserve:
    case Verb::Cancel:
        break;
    }
    throw std::logic_error("bookings are drawn as trips alone");
}

inline std::string line_of(const Task& task)
{
    std::string text;
    switch (task.form) {
    case Form::One:
        return line_of(task.parts[0]);
    case Form::Leave:
        return "leave " + std::to_string(task.customer);
    case Form::Trip:
        text = "trip " + std::to_string(task.customer);
        break;
    case Form::Update:
        text = "update";
        break;
    }
    for (unsigned i = 0; i < task.len; ++i) {
        text += i > 0 && task.form == Form::Update ? " ; " : " ";
        text += line_of(task.parts[i]);
    }
    return text;
}

// ---- the texts of replies

inline std::string_view name_of(Outcome outcome)
{
    switch (outcome) {
    case Outcome::Done:
        return "true";
    case Outcome::NeedsCountAndPrice:
        return "needs-count-and-price";
    case Outcome::TotalLimit:
        return "total-limit";
    case Outcome::Full:
        return "full";
    case Outcome::NoItem:
        return "no-item";
    case Outcome::NotFree:
        return "not-free";
    case Outcome::InUse:
        return "in-use";
    case Outcome::Exists:
        return "exists";
    case Outcome::NoCustomer:
        return "no-customer";
    case Outcome::SoldOut:
        return "sold-out";
    case Outcome::NotBooked:
        return "not-booked";
    case Outcome::UnitLimit:
        return "unit-limit";
    case Outcome::NotAsked:
        break;
    }
    return "-";
}

inline std::string text_of(const Report& report)
{
    const auto part = [](const char* name, Word value) { return name + std::to_string(value); };
    return part("cars=", report.cars) + part(" flights=", report.flights) +
           part(" rooms=", report.rooms) + part(" customers=", report.customers) +
           part(" bookings=", report.bookings) + part(" used=", report.used) +
           part(" free=", report.free) + part(" total=", report.total) +
           part(" billed=", report.billed);
}

inline std::string text_of_trip(const Reply& reply)
{
    std::string text = "trip cust=";
    text += name_of(reply.joined());
    for (unsigned kind = 0; kind < KINDS; ++kind) {
        const Reply::Pick pick = reply.pick(kind);
        text.append(" ").append(KIND_NAMES[kind]).append("=");
        if (pick.outcome != Outcome::NotAsked)
            text.append(std::to_string(pick.id)).append(":");
        text += name_of(pick.outcome);
    }
    return text;
}

inline std::string text_of_one(const Command& command, const Reply& reply)
{
    switch (command.verb) {
    case Verb::Free:
    case Verb::Price:
    case Verb::Bill:
        return reply.number() == NO_NUMBER ? "-1" : std::to_string(reply.number());
    case Verb::Audit:
        return text_of(reply.report());
    default:
        break;
    }
    const std::string name(name_of(reply.outcome()));
    return reply.outcome() == Outcome::Done ? name : "false " + name;
}

// The text of the reply to a task.
inline std::string text_of(const Task& task, const Reply& reply)
{
    switch (task.form) {
    case Form::One:
        return text_of_one(task.parts[0], reply);
    case Form::Trip:
        return text_of_trip(reply);
    case Form::Leave:
        return reply.number() == NO_NUMBER ? "-1" : std::to_string(reply.number());
    case Form::Update:
        break;
    }
    std::string text = "update";
    for (unsigned i = 0; i < task.len; ++i)
        text.append(" ").append(name_of(reply.outcome(i)));
    return text;
}

} // namespace vacation
