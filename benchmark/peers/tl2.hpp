// Transactional Locking II (Dice, Shalev, Shavit, DISC 2006), written by hand and proved by
// nobody: a version clock, lock words for stripes of words, a read log, and a write log by
// address. Its choices are those of docs/RULES.md, section 4, and its table is laid out as there,
// so that the proved program is measured beside the same algorithm: a lock word is twice its
// version, plus 1 while it is held; locks are taken in ascending order, each tried once; the clock
// is ticked by compare and exchange, at most 16 times; what was read is validated unless the write
// version is the read version plus 1.
//
// Each step of the proved program is sequentially consistent; here either every step is, too, or
// steps are ordered no more than they must be. On x86 every load is a plain one either way, and
// every exchange is locked; a sequentially consistent store is an exchange.
//
// A read of a later version ends the attempt, or, where attempts extend, the read version becomes
// the clock's if all that was read is still as it was (Riegel, Felber, Fetzer, DISC 2006); these
// also wait a little at a held lock, as TinySTM does.
#pragma once

#include "attempt_runtime.hpp"
#include "driver.hpp"
#include "heap.hpp"
#include "logs.hpp"
#include "pause.hpp"
#include "watch.hpp"

#include <algorithm>
#include <atomic>
#include <cstdint>
#include <vector>

namespace vacation {

// How steps are ordered: no more than they must be, or all of them sequentially consistent.
enum class Ordering { LEAST, SEQUENTIAL };

// Whether an attempt that finds a later version looks whether it can go on.
enum class Reading { STRICT, EXTENDING };

// The words that all clients share, in one table: the clock alone on its lines, from a line on a
// lock word for each stripe, and from a line on the data words.
class Tl2Region {
public:
    static constexpr std::size_t MOST_STRIPES = 1u << 20;

    explicit Tl2Region(const Words& words, bool = false)
        : size_(words.size()), first_cell_(FIRST_LOCK + whole_lines(stripes_of(size_))),
          table_(first_cell_ + size_)
    {
        for (std::size_t i = 0; i < size_; ++i)
            table_[first_cell_ + i].store(words[i], std::memory_order_relaxed);
    }

    // A stripe for each word, or else the address modulo their number, which is then a power of
    // two.
    Addr stripe_mask() const { return size_ <= MOST_STRIPES ? ~Addr{0} : MOST_STRIPES - 1; }
    // (of 2^62 versions the clock uses one for each task that writes: no run comes to the end)
    std::atomic<Word>* clock() { return table_.data(); }
    std::atomic<Word>* locks() { return table_.data() + FIRST_LOCK; }
    std::atomic<Word>* words() { return table_.data() + first_cell_; }

    Words copy_words() const
    {
        Words words(size_);
        for (std::size_t i = 0; i < size_; ++i)
            words[i] = table_[first_cell_ + i].load(std::memory_order_relaxed);
        return words;
    }

private:
    static constexpr std::size_t FIRST_LOCK = APART / sizeof(Word);

    static std::size_t stripes_of(std::size_t size) { return std::min(size, MOST_STRIPES); }
    static std::size_t whole_lines(std::size_t words)
    {
        return (words + LINE_WORDS - 1) / LINE_WORDS * LINE_WORDS;
    }

    std::size_t size_;
    std::size_t first_cell_;
    std::vector<std::atomic<Word>, LineAllocator<std::atomic<Word>>> table_;
};

// The attempts of one client, one after the other.
template <Ordering ORDERING, Reading READING, class Steps>
class Tl2Attempt {
public:
    using Shared = Tl2Region;
    // The names are those of docs/RULES.md, section 4.
    static constexpr std::array<std::string_view, 5> CONFLICTS{"held", "newer", "moved",
                                                               "lost-lock", "lost-tick"};

    Tl2Attempt(Tl2Region& region, Exit& exit)
        : words_(region.words()), locks_(region.locks()), stripe_mask_(region.stripe_mask()),
          clock_(region.clock()), exit_(exit)
    {
    }

    // Acquire: the locks that writers of versions up to this one hold are seen held.
    void begin()
    {
        reads_.clear();
        writes_.clear();
        read_version_ = clock_->load(order(std::memory_order_acquire));
        version_ = read_version_;
        is_writer_ = false;
    }

    Word read(Addr addr)
    {
        if (!writes_.empty()) {
            if (const Word* own = writes_.find(addr))
                return *own;
        }
        const Addr stripe = addr & stripe_mask_;
        Word before = free_lock(stripe);
        while (version_of(before) > read_version_) {
            if (!extend())
                exit_.leave(NEWER, stripe);
            before = free_lock(stripe);
        }
        Steps::step();
        // Acquire: the lock word is loaded again after the value, and whoever has loaded a value
        // that a writer stored sees that writer's lock, or what came after it (see
        // `store_and_release`).
        const Word value = words_[addr].load(order(std::memory_order_acquire));
        Steps::step();
        if (locks_[stripe].load(order(std::memory_order_relaxed)) != before)
            exit_.leave(MOVED, stripe);
        reads_.push(stripe);
        return value;
    }

    void write(Addr addr, Word value) { writes_.put(addr, value); }

    // Ends the attempt, whose body is done; false after a conflict. Then no lock is held.
    bool commit()
    {
        if (writes_.empty())
            return true;
        sort_stripes();
        if (!take_locks() || !tick() || !validate()) {
            give_locks_back();
            version_ = read_version_;
            return false;
        }
        store_and_release();
        is_writer_ = true;
        return true;
    }

    // Of an attempt that has written, its write version, and of others the read version; the
    // writer of a version stands before its readers.
    Word place() const { return 2 * version_ + (is_writer_ ? 0 : 1); }

private:
    enum Conflict : unsigned { HELD, NEWER, MOVED, LOST_LOCK, LOST_TICK };
    static constexpr unsigned MOST_TICKS = 16;
    // The most idle turns of those that wait at a held lock.
    static constexpr unsigned MOST_TURNS = 64;

    // The order of a step that must have at least this one.
    static constexpr std::memory_order order(std::memory_order least)
    {
        return ORDERING == Ordering::SEQUENTIAL ? std::memory_order_seq_cst : least;
    }

    static bool is_held(Word lock) { return lock % 2 == 1; }
    static Word version_of(Word lock) { return lock / 2; }

    // The lock word of a stripe that nobody holds. Those that extend wait a little for it.
    Word free_lock(Addr stripe)
    {
        // Acquire: the value loaded next is of the lock word's version or later.
        Word lock = locks_[stripe].load(order(std::memory_order_acquire));
        if (is_held(lock)) {
            lock = wait_until_free(stripe, lock);
            if (is_held(lock))
                exit_.leave(HELD, stripe);
        }
        return lock;
    }

    [[gnu::cold, gnu::noinline]] Word wait_until_free(Addr stripe, Word lock)
    {
        const unsigned turns = READING == Reading::EXTENDING ? MOST_TURNS : 0;
        for (unsigned turn = 0; is_held(lock) && turn < turns; ++turn) {
            relax();
            lock = locks_[stripe].load(order(std::memory_order_acquire));
        }
        return lock;
    }

    // Makes the clock's version the read version, if all that was read is as it was. Acquire: a
    // lock that is found free of a later version now is none that a writer up to the clock's
    // version still has to take.
    [[gnu::cold, gnu::noinline]] bool extend()
    {
        if (READING == Reading::STRICT)
            return false;
        const Word now = clock_->load(order(std::memory_order_acquire));
        Steps::step();
        for (const Addr stripe : reads_) {
            const Word lock = locks_[stripe].load(order(std::memory_order_relaxed));
            if (is_held(lock) || version_of(lock) > read_version_)
                return false;
        }
        read_version_ = version_ = now;
        return true;
    }

    // The stripes of the written words, ascending, each once.
    void sort_stripes()
    {
        stripes_.clear();
        for (const Written& written : writes_.entries())
            stripes_.push_back(written.addr & stripe_mask_);
        std::sort(stripes_.begin(), stripes_.end());
        stripes_.erase(std::unique(stripes_.begin(), stripes_.end()), stripes_.end());
    }

    bool take_locks()
    {
        held_.clear();
        for (const Addr stripe : stripes_) {
            Word before = locks_[stripe].load(order(std::memory_order_relaxed));
            if (is_held(before))
                before = wait_until_free(stripe, before);
            if (is_held(before))
                return exit_.fail(HELD, stripe);
            Steps::step();
            // Acquire: what is read and stored from here on comes after the lock was taken.
            if (!locks_[stripe].compare_exchange_strong(
                    before, before + 1, order(std::memory_order_acquire),
                    order(std::memory_order_relaxed)))
                return exit_.fail(LOST_LOCK, stripe);
            held_.push_back(before);
        }
        return true;
    }

    // Acquire and release: of two writers that tick, the later one sees the locks of the earlier
    // one when it validates, and whoever begins at this version or later sees them held or
    // released.
    bool tick()
    {
        Word from = read_version_;
        for (unsigned i = 0; i < MOST_TICKS; ++i) {
            Steps::step();
            if (clock_->compare_exchange_strong(from, from + 1, order(std::memory_order_acq_rel),
                                                order(std::memory_order_acquire))) {
                version_ = from + 1;
                return true;
            }
        }
        return exit_.fail(LOST_TICK);
    }

    // With the version behind the read version nobody else has written since the attempt began.
    // The loads need no order of their own: the tick has acquired the locks of all earlier
    // writers.
    bool validate()
    {
        if (version_ == read_version_ + 1)
            return true;
        for (const Addr stripe : reads_) {
            Steps::step();
            const Word lock = locks_[stripe].load(order(std::memory_order_relaxed));
            if (is_held(lock) && !holds(stripe))
                return exit_.fail(HELD, stripe);
            if (version_of(lock) > read_version_)
                return exit_.fail(NEWER, stripe);
        }
        return true;
    }

    bool holds(Addr stripe) const
    {
        return std::binary_search(stripes_.begin(), stripes_.end(), stripe);
    }

    void store_and_release()
    {
        // The fence, with the acquire of a read's value: whoever loads one of these values sees
        // the locks held.
        if constexpr (ORDERING == Ordering::LEAST)
            std::atomic_thread_fence(std::memory_order_release);
        for (const Written& written : writes_.entries()) {
            Steps::step();
            words_[written.addr].store(written.value, order(std::memory_order_relaxed));
        }
        // Release: whoever sees a lock free with this version sees the values, too.
        for (const Addr stripe : stripes_) {
            Steps::step();
            locks_[stripe].store(2 * version_, order(std::memory_order_release));
        }
    }

    // Release: whoever finds the old version here sees what its writer stored, which this client
    // has seen when it took the lock.
    void give_locks_back()
    {
        for (std::size_t i = 0; i < held_.size(); ++i)
            locks_[stripes_[i]].store(held_[i], order(std::memory_order_release));
    }

    std::atomic<Word>* words_;
    std::atomic<Word>* locks_;
    Addr stripe_mask_;
    std::atomic<Word>* clock_;
    Word read_version_ = 0;
    Word version_ = 0;
    WriteLog writes_;
    // The stripe of each word that was read, in the order of the reads.
    ReadLog reads_;
    // The stripes of the written words, and of the first of them, those that are held, the lock
    // words from before.
    std::vector<Addr> stripes_;
    std::vector<Word> held_;
    bool is_writer_ = false;
    Exit& exit_;
};

// The runtime as it is measured, and the same with its steps drawn apart.
template <Ordering ORDERING, Reading READING>
int run_tl2(int count, char** words)
{
    return run_peer<AttemptRuntime<Tl2Attempt<ORDERING, READING, Straight>>,
                    AttemptRuntime<Tl2Attempt<ORDERING, READING, Jittered>>>(count, words);
}

} // namespace vacation
