// A peer: striped two-phase locking (Eswaran, Gray, Lorie, Traiger 1976). A stripe of words has a
// lock for many readers or one writer, taken at the first read or write and held to the end;
// words are written in place, and what they held is put back where the attempt cannot go on. One
// that has waited a little for a lock gives up, so that no circle of waiting lasts.
#include "attempt_runtime.hpp"
#include "driver.hpp"
#include "logs.hpp"
#include "pause.hpp"
#include "watch.hpp"

#include <algorithm>
#include <atomic>
#include <vector>

namespace vacation {

class TwoPhaseShared {
public:
    static constexpr std::size_t MOST_STRIPES = 1u << 20;

    TwoPhaseShared(const Words& words, bool is_ordered)
        : locks_(std::min(words.size(), MOST_STRIPES)), words_(words.size()),
          is_ordered_(is_ordered)
    {
        for (std::size_t i = 0; i < words.size(); ++i)
            words_[i].store(words[i], std::memory_order_relaxed);
    }

    Addr stripe_mask() const { return words_.size() <= MOST_STRIPES ? ~Addr{0} : MOST_STRIPES - 1; }
    std::atomic<Word>* locks() { return locks_.data(); }
    std::atomic<Word>* words() { return words_.data(); }
    bool is_ordered() const { return is_ordered_; }
    // How many have written.
    std::atomic<Word>& writers() { return writers_; }

    Words copy_words() const { return Words(words_.begin(), words_.end()); }

private:
    using Atomics = std::vector<std::atomic<Word>, LineAllocator<std::atomic<Word>>>;

    alignas(APART) std::atomic<Word> writers_{0};
    alignas(APART) Atomics locks_;
    Atomics words_;
    bool is_ordered_;
};

template <class Steps>
class TwoPhaseAttempt {
public:
    using Shared = TwoPhaseShared;
    static constexpr std::array<std::string_view, 3> CONFLICTS{"read-held", "write-held",
                                                               "read-by-others"};

    TwoPhaseAttempt(TwoPhaseShared& shared, Exit& exit)
        : words_(shared.words()), locks_(shared.locks()), writers_(shared.writers()),
          stripe_mask_(shared.stripe_mask()), is_ordered_(shared.is_ordered()), exit_(exit)
    {
    }

    void begin()
    {
        held_.clear();
        old_.clear();
    }

    Word read(Addr addr)
    {
        const Addr stripe = addr & stripe_mask_;
        if (held_.find(stripe) == nullptr) {
            if (!lock_to_read(stripe))
                leave(READ_HELD, stripe);
            held_.put(stripe, ONE_READER);
        }
        Steps::step();
        return words_[addr].load(std::memory_order_relaxed);
    }

    void write(Addr addr, Word value)
    {
        const Addr stripe = addr & stripe_mask_;
        const Word* own = held_.find(stripe);
        const Word mine = own == nullptr ? 0 : *own;
        if (mine != WRITER) {
            if (!lock_to_write(stripe, mine))
                leave(mine == 0 ? WRITE_HELD : READ_BY_OTHERS, stripe);
            held_.put(stripe, WRITER);
        }
        Steps::step();
        old_.push_back({addr, words_[addr].load(std::memory_order_relaxed)});
        words_[addr].store(value, std::memory_order_relaxed);
    }

    bool commit()
    {
        // (counted while all locks are held, so that the count is the order of those who met at
        // a word)
        if (old_.empty())
            see_place();
        else if (is_ordered_)
            place_ = 2 * (writers_.fetch_add(1) + 1);
        release();
        return true;
    }

    void undo()
    {
        put_back();
        release();
    }

    // A writer's count is its version; what others read was there at the version that they find.
    Word place() const { return place_; }

private:
    enum Conflict : unsigned { READ_HELD, WRITE_HELD, READ_BY_OTHERS };
    static constexpr Word WRITER = 1;
    static constexpr Word ONE_READER = 2;
    // The most idle turns of those that wait for a lock.
    static constexpr unsigned MOST_TURNS = 128;

    // Acquire: what the writer before has stored is seen.
    bool lock_to_read(Addr stripe)
    {
        for (unsigned turn = 0; turn < MOST_TURNS; ++turn) {
            Word lock = locks_[stripe].load(std::memory_order_relaxed);
            if (lock != WRITER &&
                locks_[stripe].compare_exchange_strong(lock, lock + ONE_READER,
                                                       std::memory_order_acquire,
                                                       std::memory_order_relaxed))
                return true;
            relax();
        }
        return false;
    }

    // From what this client holds of the lock, which must be all of it.
    bool lock_to_write(Addr stripe, Word mine)
    {
        for (unsigned turn = 0; turn < MOST_TURNS; ++turn) {
            Word lock = mine;
            if (locks_[stripe].load(std::memory_order_relaxed) == mine &&
                locks_[stripe].compare_exchange_strong(lock, WRITER, std::memory_order_acquire,
                                                       std::memory_order_relaxed))
                return true;
            relax();
        }
        return false;
    }

    void see_place()
    {
        if (is_ordered_)
            place_ = 2 * writers_.load() + 1;
    }

    // Puts back what was there, the last word first.
    void put_back()
    {
        for (auto old = old_.rbegin(); old != old_.rend(); ++old) {
            Steps::step();
            words_[old->addr].store(old->value, std::memory_order_relaxed);
        }
    }

    // Puts back what was there, and leaves.
    [[noreturn, gnu::cold, gnu::noinline]] void leave(Conflict conflict, Addr stripe)
    {
        put_back();
        see_place();
        release();
        exit_.leave(conflict, stripe);
    }

    // Release: who takes a lock next sees what was stored.
    void release()
    {
        for (const Written& held : held_.entries()) {
            Steps::step();
            locks_[held.addr].fetch_sub(held.value, std::memory_order_release);
        }
    }

    std::atomic<Word>* words_;
    std::atomic<Word>* locks_;
    std::atomic<Word>& writers_;
    Addr stripe_mask_;
    bool is_ordered_;
    Word place_ = 0;
    // By stripe what this client holds of its lock word.
    WriteLog held_;
    // What each written word held before.
    std::vector<Written> old_;
    Exit& exit_;
};

} // namespace vacation

int main(int count, char** words)
{
    using namespace vacation;
    return run_peer<AttemptRuntime<TwoPhaseAttempt<Straight>>,
                    AttemptRuntime<TwoPhaseAttempt<Jittered>>>(count, words);
}
