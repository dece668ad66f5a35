// The reservation system over any memory: its commands, and tasks as the bodies of transactions.
// The heap, its tables and its lists are those of docs/RULES.md, section 3, word by word, and so
// are the steps of each command: entries are looked up by key, once each, and a word that a
// command has read is not read again.
//
// `start` is the free list from which on new entries take their blocks, and which gets those of
// entries that go.
#pragma once

#include "heap.hpp"
#include "table.hpp"
#include "task.hpp"

namespace vacation {

// The words of an item behind those of the table, ..
constexpr Addr USED = 4;
constexpr Addr FREE = 5;
constexpr Addr TOTAL = 6;
constexpr Addr PRICE = 7;
// .. of a customer, ..
constexpr Addr BOOKINGS = 4;
// .. and of a booking. The last three of a customer and of a booking are spare.
constexpr Addr BOOKED_KIND = 0;
constexpr Addr BOOKED_ID = 1;
constexpr Addr SUM = 2;
constexpr Addr NEXT = 3;
constexpr Addr UNITS = 4;
constexpr Addr FIRST_SPARE = 5;

using Id = std::uint32_t;
using Count = std::uint32_t;

constexpr Addr root_of(Kind kind)
{
    return FIRST_ROOT + static_cast<Addr>(kind);
}

template <class Memory>
Addr find_item(Memory memory, Kind kind, Id id)
{
    return find(memory, root_of(kind), id);
}

template <class Memory>
Addr find_customer(Memory memory, Id id)
{
    return find(memory, CUSTOMERS, id);
}

// Takes an entry that is there out of its table, and gives its block back.
template <class Memory>
void remove_entry(Memory memory, unsigned start, Addr root, Id id)
{
    const Addr block = remove(memory, root, id);
    give(memory, start, block);
}

// ---- items

template <class Memory>
Word word_of_item(Memory memory, Kind kind, Id id, Addr place)
{
    const Addr item = find_item(memory, kind, id);
    return item == 0 ? NO_NUMBER : memory.read(item + place);
}

template <class Memory>
Outcome add_new(Memory memory, unsigned start, Kind kind, Id id, Count num, Count price)
{
    if (num == 0 || price == NO_PRICE)
        return Outcome::NeedsCountAndPrice;
    const Addr item = take(memory, start);
    if (item == 0)
        return Outcome::Full;
    memory.write(item + KEY, id);
    memory.write(item + USED, 0);
    memory.write(item + FREE, num);
    memory.write(item + TOTAL, num);
    memory.write(item + PRICE, price);
    insert(memory, root_of(kind), id, item);
    return Outcome::Done;
}

template <class Memory>
Outcome add_more(Memory memory, Addr item, Count num, Count price)
{
    const Word total = memory.read(item + TOTAL);
    if (total + num > MOST_TOTAL)
        return Outcome::TotalLimit;
    if (num > 0) {
        memory.write(item + FREE, memory.read(item + FREE) + num);
        memory.write(item + TOTAL, total + num);
    }
    if (price != NO_PRICE)
        memory.write(item + PRICE, price);
    return Outcome::Done;
}

template <class Memory>
Outcome add(Memory memory, unsigned start, Kind kind, Id id, Count num, Count price)
{
    const Addr item = find_item(memory, kind, id);
    return item == 0 ? add_new(memory, start, kind, id, num, price)
                     : add_more(memory, item, num, price);
}

template <class Memory>
Outcome delete_units(Memory memory, unsigned start, Kind kind, Id id, Count num)
{
    const Addr item = find_item(memory, kind, id);
    if (item == 0)
        return Outcome::NoItem;
    const Word free = memory.read(item + FREE);
    if (free < num)
        return Outcome::NotFree;
    const Word total = memory.read(item + TOTAL);
    if (total == num) {
        remove_entry(memory, start, root_of(kind), id);
    } else if (num > 0) {
        memory.write(item + FREE, free - num);
        memory.write(item + TOTAL, total - num);
    }
    return Outcome::Done;
}

template <class Memory>
Outcome drop_flight(Memory memory, unsigned start, Id id)
{
    const Addr flight = find_item(memory, Kind::Flight, id);
    if (flight == 0)
        return Outcome::NoItem;
    if (memory.read(flight + USED) > 0)
        return Outcome::InUse;
    remove_entry(memory, start, root_of(Kind::Flight), id);
    return Outcome::Done;
}

// ---- bookings

// Where a booking stands in a customer's list, or would stand: the word that leads there, what
// that word holds, and the booking, or 0.
struct Spot {
    Addr link;
    Addr next;
    Addr booking;
};

template <class Memory>
Spot seek(Memory memory, Addr customer, Kind kind, Id id)
{
    const Word wanted = static_cast<Word>(kind);
    for (Addr link = customer + BOOKINGS;;) {
        const Addr block = follow(memory, link);
        if (block == 0)
            return {link, 0, 0};
        const Word booked = memory.read(block + BOOKED_KIND);
        if (booked > wanted)
            return {link, block, 0};
        if (booked == wanted) {
            const Word found = memory.read(block + BOOKED_ID);
            if (found >= id)
                return {link, block, found == id ? block : 0};
        }
        link = block + NEXT;
    }
}

template <class Memory>
void clear_spare(Memory memory, Addr block)
{
    for (Addr place = FIRST_SPARE; place < BLOCK_WORDS; ++place)
        if (memory.read(block + place) != 0)
            memory.write(block + place, 0);
}

template <class Memory>
Outcome book_more(Memory memory, Addr booking, Count num, Word sum)
{
    const Word units = memory.read(booking + UNITS);
    if (units + num > MOST_UNITS)
        return Outcome::UnitLimit;
    memory.write(booking + SUM, memory.read(booking + SUM) + sum);
    memory.write(booking + UNITS, units + num);
    return Outcome::Done;
}

// Makes a booking, to stand where `link` leads, before `next`.
template <class Memory>
Outcome book(Memory memory, unsigned start, Addr link, Addr next, Kind kind, Id id, Count num,
             Word sum)
{
    const Addr booking = take(memory, start);
    if (booking == 0)
        return Outcome::Full;
    memory.write(booking + BOOKED_KIND, static_cast<Word>(kind));
    memory.write(booking + BOOKED_ID, id);
    memory.write(booking + SUM, sum);
    memory.write(booking + NEXT, next);
    memory.write(booking + UNITS, num);
    clear_spare(memory, booking);
    memory.write(link, booking);
    return Outcome::Done;
}

// Books units of an item at its price, which the caller has read.
template <class Memory>
Outcome reserve_at(Memory memory, unsigned start, Addr customer, Kind kind, Id id, Addr item,
                   Count num, Word price)
{
    const Word free = memory.read(item + FREE);
    if (free < num)
        return Outcome::SoldOut;
    const Word sum = num * price;
    const Spot spot = seek(memory, customer, kind, id);
    const Outcome outcome = spot.booking != 0
                                ? book_more(memory, spot.booking, num, sum)
                                : book(memory, start, spot.link, spot.next, kind, id, num, sum);
    if (outcome == Outcome::Done) {
        memory.write(item + FREE, free - num);
        memory.write(item + USED, memory.read(item + USED) + num);
    }
    return outcome;
}

template <class Memory>
Outcome reserve(Memory memory, unsigned start, Id customer_id, Kind kind, Id id, Count num)
{
    const Addr customer = find_customer(memory, customer_id);
    if (customer == 0)
        return Outcome::NoCustomer;
    const Addr item = find_item(memory, kind, id);
    if (item == 0)
        return Outcome::NoItem;
    const Word price = memory.read(item + PRICE);
    return reserve_at(memory, start, customer, kind, id, item, num, price);
}

template <class Memory>
void give_units_back(Memory memory, Addr item, Word units)
{
    memory.write(item + USED, memory.read(item + USED) - units);
    memory.write(item + FREE, memory.read(item + FREE) + units);
}

template <class Memory>
Outcome cancel(Memory memory, unsigned start, Id customer_id, Kind kind, Id id)
{
    const Addr customer = find_customer(memory, customer_id);
    if (customer == 0)
        return Outcome::NoCustomer;
    const Addr item = find_item(memory, kind, id);
    if (item == 0)
        return Outcome::NoItem;
    const Spot spot = seek(memory, customer, kind, id);
    if (spot.booking == 0)
        return Outcome::NotBooked;
    memory.write(spot.link, memory.read(spot.booking + NEXT));
    give_units_back(memory, item, memory.read(spot.booking + UNITS));
    give(memory, start, spot.booking);
    return Outcome::Done;
}

// ---- customers

// Makes a customer who is missing; 0 where no block is free.
template <class Memory>
Addr add_customer(Memory memory, unsigned start, Id id)
{
    const Addr customer = take(memory, start);
    if (customer == 0)
        return 0;
    memory.write(customer + KEY, id);
    memory.write(customer + BOOKINGS, 0);
    clear_spare(memory, customer);
    insert(memory, CUSTOMERS, id, customer);
    return customer;
}

template <class Memory>
Outcome new_customer(Memory memory, unsigned start, Id id)
{
    if (find_customer(memory, id) != 0)
        return Outcome::Exists;
    return add_customer(memory, start, id) == 0 ? Outcome::Full : Outcome::Done;
}

template <class Memory>
Word bill_at(Memory memory, Addr customer)
{
    Word total = 0;
    for (Addr booking = follow(memory, customer + BOOKINGS); booking != 0;
         booking = follow(memory, booking + NEXT))
        total += memory.read(booking + SUM);
    return total;
}

template <class Memory>
Word bill(Memory memory, Id id)
{
    const Addr customer = find_customer(memory, id);
    return customer == 0 ? NO_NUMBER : bill_at(memory, customer);
}

// Gives all bookings back, and takes the customer out of the table.
template <class Memory>
void drop_customer_at(Memory memory, unsigned start, Id id, Addr customer)
{
    const Addr first = follow(memory, customer + BOOKINGS);
    for (Addr booking = first; booking != 0;) {
        const Kind kind = static_cast<Kind>(memory.read(booking + BOOKED_KIND));
        const Id item_id = static_cast<Id>(memory.read(booking + BOOKED_ID));
        const Addr item = find_item(memory, kind, item_id);
        const Addr next = follow(memory, booking + NEXT);
        give_units_back(memory, item, memory.read(booking + UNITS));
        give(memory, start, booking);
        booking = next;
    }
    if (first != 0)
        memory.write(customer + BOOKINGS, 0);
    remove_entry(memory, start, CUSTOMERS, id);
}

template <class Memory>
Outcome drop_customer(Memory memory, unsigned start, Id id)
{
    const Addr customer = find_customer(memory, id);
    if (customer == 0)
        return Outcome::NoCustomer;
    drop_customer_at(memory, start, id, customer);
    return Outcome::Done;
}

// ---- the report

// Adds up the items below a node, which so many nodes are above, and answers how many there are.
template <class Memory>
Word sum_items(Memory memory, Addr node, unsigned depth, Report& all)
{
    if (node == 0)
        return 0;
    if (depth == Path::LEVELS)
        memory.abandon();
    all.used += memory.read(node + USED);
    all.free += memory.read(node + FREE);
    all.total += memory.read(node + TOTAL);
    return 1 + sum_items(memory, follow(memory, node + LEFT), depth + 1, all) +
           sum_items(memory, follow(memory, node + RIGHT), depth + 1, all);
}

template <class Memory>
Word sum_customers(Memory memory, Addr node, unsigned depth, Report& all)
{
    if (node == 0)
        return 0;
    if (depth == Path::LEVELS)
        memory.abandon();
    for (Addr booking = follow(memory, node + BOOKINGS); booking != 0;
         booking = follow(memory, booking + NEXT)) {
        all.bookings += memory.read(booking + UNITS);
        all.billed += memory.read(booking + SUM);
    }
    return 1 + sum_customers(memory, follow(memory, node + LEFT), depth + 1, all) +
           sum_customers(memory, follow(memory, node + RIGHT), depth + 1, all);
}

// How many entries each table has, and what their numbers add up to.
template <class Memory>
Report report(Memory memory)
{
    Report all{};
    all.cars = sum_items(memory, follow(memory, root_of(Kind::Car)), 0, all);
    all.flights = sum_items(memory, follow(memory, root_of(Kind::Flight)), 0, all);
    all.rooms = sum_items(memory, follow(memory, root_of(Kind::Room)), 0, all);
    all.customers = sum_customers(memory, follow(memory, CUSTOMERS), 0, all);
    return all;
}

// ---- tasks

template <class Memory>
Outcome change(Memory memory, unsigned start, const Command* command)
{
    const Kind kind = kind_of(command);
    const Id id = id_of(command);
    switch (verb_of(command)) {
    case Verb::Add:
        return add(memory, start, kind, id, num_of(command), price_of(command));
    case Verb::Delete:
        return delete_units(memory, start, kind, id, num_of(command));
    default:
        return drop_flight(memory, start, id);
    }
}

template <class Memory>
void run_one(Memory memory, unsigned start, Id customer, const Command* command, Reply& reply)
{
    const Kind kind = kind_of(command);
    const Id id = id_of(command);
    switch (verb_of(command)) {
    case Verb::Free:
        return reply.set_number(word_of_item(memory, kind, id, FREE));
    case Verb::Price:
        return reply.set_number(word_of_item(memory, kind, id, PRICE));
    case Verb::Bill:
        return reply.set_number(bill(memory, id));
    case Verb::Audit:
        return reply.set_report(report(memory));
    case Verb::NewCustomer:
        return reply.set_outcome(new_customer(memory, start, id));
    case Verb::DropCustomer:
        return reply.set_outcome(drop_customer(memory, start, id));
    case Verb::Reserve:
        return reply.set_outcome(reserve(memory, start, customer, kind, id, num_of(command)));
    case Verb::Cancel:
        return reply.set_outcome(cancel(memory, start, customer, kind, id));
    default:
        return reply.set_outcome(change(memory, start, command));
    }
}

// Of each kind the dearest of the items that a trip has found, the first of these.
class Choices {
public:
    PRIVATE_TO_THREAD Choices() : choices_{} {}

    PRIVATE_TO_THREAD void see(Kind kind, Id id, Addr item, Word price)
    {
        Choice& best = choices_[static_cast<unsigned>(kind)];
        if (best.item == 0 || best.price < price)
            best = {item, id, price};
    }

    // The block of the item that was chosen, or 0.
    PRIVATE_TO_THREAD Addr item(unsigned kind) const { return choices_[kind].item; }
    PRIVATE_TO_THREAD Id id(unsigned kind) const { return choices_[kind].id; }
    PRIVATE_TO_THREAD Word price(unsigned kind) const { return choices_[kind].price; }

private:
    struct Choice {
        Addr item;
        Id id;
        Word price;
    };
    Choice choices_[KINDS];
};

// The customer of a trip, who is made where there is none; 0 where no block is free.
template <class Memory>
Addr join(Memory memory, unsigned start, Id id, Reply& reply)
{
    if (const Addr customer = find_customer(memory, id); customer != 0) {
        reply.set_joined(Outcome::Exists);
        return customer;
    }
    const Addr customer = add_customer(memory, start, id);
    reply.set_joined(customer == 0 ? Outcome::Full : Outcome::Done);
    return customer;
}

template <class Memory>
void book_choices(Memory memory, unsigned start, Id customer_id, const Choices& choices,
                  Reply& reply)
{
    const Addr customer = join(memory, start, customer_id, reply);
    for (unsigned i = 0; i < KINDS; ++i) {
        const Addr item = choices.item(i);
        if (item == 0)
            continue;
        const Id id = choices.id(i);
        const Outcome outcome =
            customer == 0 ? Outcome::NoCustomer
                          : reserve_at(memory, start, customer, static_cast<Kind>(i), id, item, 1,
                                       choices.price(i));
        reply.set_pick(i, outcome, id);
    }
}

template <class Memory>
void run_trip(Memory memory, unsigned start, Id customer, const Command* asks, unsigned len,
              Reply& reply)
{
    Choices choices;
    bool any = false;
    for (const Command* ask = asks; ask != asks + len; ++ask) {
        const Kind kind = kind_of(ask);
        const Id id = id_of(ask);
        const Addr item = find_item(memory, kind, id);
        if (item != 0) {
            choices.see(kind, id, item, memory.read(item + PRICE));
            any = true;
        }
    }
    reply.set_no_trip();
    if (any)
        book_choices(memory, start, customer, choices, reply);
}

template <class Memory>
void run_leave(Memory memory, unsigned start, Id customer_id, Reply& reply)
{
    const Addr customer = find_customer(memory, customer_id);
    if (customer == 0)
        return reply.set_number(NO_NUMBER);
    reply.set_number(bill_at(memory, customer));
    drop_customer_at(memory, start, customer_id, customer);
}

// Runs a task as the body of a transaction over this memory.
template <class Memory>
void run_task(Memory memory, unsigned start, const Task& task, Reply& reply)
{
    const Command* parts = parts_of(task);
    const unsigned len = len_of(task);
    switch (form_of(task)) {
    case Form::One:
        return run_one(memory, start, customer_of(task), parts, reply);
    case Form::Trip:
        return run_trip(memory, start, customer_of(task), parts, len, reply);
    case Form::Leave:
        return run_leave(memory, start, customer_of(task), reply);
    case Form::Update:
        for (unsigned i = 0; i < len; ++i)
            reply.set_change(i, change(memory, start, parts + i));
    }
}

} // namespace vacation
