// A peer: a lock for each table, and one for the lists of free blocks. A task takes the locks of
// the tables that it may touch, in one order, before it begins, and that of the lists behind them
// when it first takes or gives a block; all are held to its end.
#include "attempts.hpp"
#include "driver.hpp"
#include "heap.hpp"
#include "manager.hpp"
#include "spin.hpp"
#include "watch.hpp"

#include <atomic>
#include <utility>

namespace vacation {

// The locks by the numbers of the root words; 0 is that of the lists.
constexpr unsigned TABLES = CUSTOMERS + 1;
constexpr unsigned LISTS_LOCK = 0;

struct alignas(APART) TableLock {
    SpinLock lock;
};

// Which tables a task may touch, a bit for each root word.
inline unsigned tables_of(const Task& task)
{
    constexpr unsigned customers = 1u << CUSTOMERS;
    constexpr unsigned all = customers | 1u << root_of(Kind::Car) | 1u << root_of(Kind::Flight) |
                             1u << root_of(Kind::Room);
    unsigned found = task.form == Form::Trip ? customers : 0;
    if (task.form == Form::Leave)
        return all;
    for (unsigned i = 0; i < task.len; ++i) {
        const Command& part = task.parts[i];
        switch (part.verb) {
        case Verb::Audit:
        case Verb::DropCustomer:
            return all;
        case Verb::NewCustomer:
        case Verb::Bill:
            found |= customers;
            break;
        case Verb::Reserve:
        case Verb::Cancel:
            found |= customers | 1u << root_of(part.kind);
            break;
        default:
            found |= 1u << root_of(part.kind);
        }
    }
    return found;
}

// The locks that a task holds.
class Holding {
public:
    Holding(TableLock* locks, unsigned tables) : locks_(locks), tables_(tables)
    {
        for (unsigned table = 0; table < TABLES; ++table)
            if (tables_ >> table & 1)
                locks_[table].lock.lock();
    }
    Holding(const Holding&) = delete;
    Holding& operator=(const Holding&) = delete;

    ~Holding()
    {
        for (unsigned table = 0; table < TABLES; ++table)
            if (tables_ >> table & 1)
                locks_[table].lock.unlock();
    }

    void take_lists()
    {
        if ((tables_ >> LISTS_LOCK & 1) == 0)
            locks_[LISTS_LOCK].lock.lock();
        tables_ |= 1u << LISTS_LOCK;
    }

private:
    TableLock* locks_;
    unsigned tables_;
};

// Whoever takes or gives a block reads the head of a list before anything else of the lists.
struct TableMemory {
    PlainMemory words;
    Holding* holding;

    Word read(Addr addr) const
    {
        if (addr - FIRST_HEAD < LISTS)
            holding->take_lists();
        return words.read(addr);
    }
    void write(Addr addr, Word value) const { words.write(addr, value); }
    [[noreturn]] void abandon() const { words.abandon(); }
};

class TablesRuntime {
public:
    static constexpr auto CONFLICTS = NO_CONFLICTS;

    class alignas(APART) Client {
    public:
        Client(TablesRuntime& runtime, const Seat& seat) : runtime_(&runtime), seat_(seat) {}

        bool call(const Task& task, Reply& reply, unsigned)
        {
            ++attempts_.begun;
            if (seat_.watch != nullptr)
                seat_.watch->begin();
            run(task, reply);
            if (seat_.watch != nullptr)
                seat_.watch->end(true, place_);
            return true;
        }

        Word place() const { return place_; }
        const Attempts& attempts() const { return attempts_; }

    private:
        void run(const Task& task, Reply& reply)
        {
            Holding holding(runtime_->locks_, tables_of(task));
            const TableMemory memory{PlainMemory(runtime_->words_.data()), &holding};
            if (seat_.watch == nullptr) {
                run_task(memory, seat_.start, task, reply);
            } else {
                seat_.watch->start();
                run_task(Watched<TableMemory>{memory, seat_.watch}, seat_.start, task, reply);
            }
            // (counted while all locks are held, so that the count is the order of those that
            // have a lock in common)
            if (runtime_->is_ordered_)
                place_ = runtime_->calls_.fetch_add(1) + 1;
        }

        TablesRuntime* runtime_;
        Seat seat_;
        Word place_ = 0;
        Attempts attempts_;
    };

    TablesRuntime(Words words, bool is_ordered)
        : words_(std::move(words)), is_ordered_(is_ordered)
    {
    }

    Words words() { return std::move(words_); }

private:
    TableLock locks_[TABLES];
    alignas(APART) std::atomic<Word> calls_{0};
    alignas(APART) Words words_;
    bool is_ordered_;
};

} // namespace vacation

int main(int count, char** words)
{
    return vacation::run_peer<vacation::TablesRuntime>(count, words);
}
