// A peer: NOrec (Dalessandro, Spear, Scott, PPoPP 2010), which owns no words: one sequence lock,
// held by a writer while it stores, and a read log of values, which are compared again whenever
// the lock has moved.
#include "attempt_runtime.hpp"
#include "driver.hpp"
#include "logs.hpp"
#include "pause.hpp"
#include "watch.hpp"

#include <atomic>
#include <vector>

namespace vacation {

// The sequence lock alone on its lines, and from a line on the words.
class NorecShared {
public:
    explicit NorecShared(const Words& words, bool) : words_(words.size())
    {
        for (std::size_t i = 0; i < words.size(); ++i)
            words_[i].store(words[i], std::memory_order_relaxed);
    }

    // Twice the version that was written last, plus 1 while the next one is stored.
    std::atomic<Word>& sequence() { return sequence_; }
    std::atomic<Word>* words() { return words_.data(); }

    Words copy_words() const { return Words(words_.begin(), words_.end()); }

private:
    alignas(APART) std::atomic<Word> sequence_{0};
    alignas(APART) std::vector<std::atomic<Word>, LineAllocator<std::atomic<Word>>> words_;
};

template <class Steps>
class NorecAttempt {
public:
    using Shared = NorecShared;
    static constexpr std::array<std::string_view, 1> CONFLICTS{"changed"};

    NorecAttempt(NorecShared& shared, Exit& exit)
        : words_(shared.words()), sequence_(shared.sequence()), exit_(exit)
    {
    }

    void begin()
    {
        reads_.clear();
        writes_.clear();
        is_writer_ = false;
        snapshot_ = even_sequence();
    }

    Word read(Addr addr)
    {
        if (!writes_.empty()) {
            if (const Word* own = writes_.find(addr))
                return *own;
        }
        // Acquire: the sequence is loaded again after the value, and whoever has loaded a value
        // that a writer stored sees the sequence odd, or what came after it.
        Word value = words_[addr].load(std::memory_order_acquire);
        Steps::step();
        while (sequence_.load(std::memory_order_relaxed) != snapshot_) {
            snapshot_ = validate();
            value = words_[addr].load(std::memory_order_acquire);
            Steps::step();
        }
        reads_.push_back({addr, value});
        return value;
    }

    void write(Addr addr, Word value) { writes_.put(addr, value); }

    bool commit()
    {
        if (writes_.empty())
            return true;
        Word from = snapshot_;
        // Acquire: what is stored from here on comes after the sequence is odd.
        while (!sequence_.compare_exchange_strong(from, from + 1, std::memory_order_acq_rel,
                                                  std::memory_order_relaxed)) {
            Steps::step();
            from = snapshot_ = validate();
        }
        // The fence, with the acquire of a read's value: whoever loads one of these values sees
        // the sequence odd.
        std::atomic_thread_fence(std::memory_order_release);
        for (const Written& written : writes_.entries()) {
            Steps::step();
            words_[written.addr].store(written.value, std::memory_order_relaxed);
        }
        snapshot_ += 2;
        is_writer_ = true;
        // Release: whoever sees this version sees its values.
        sequence_.store(snapshot_, std::memory_order_release);
        return true;
    }

    // (the snapshot is twice a version)
    Word place() const { return snapshot_ + (is_writer_ ? 0 : 1); }

private:
    // Acquire: what the writers up to this version have stored is seen.
    Word even_sequence() const
    {
        Pause pause;
        for (;; pause.wait()) {
            const Word now = sequence_.load(std::memory_order_acquire);
            if (now % 2 == 0)
                return now;
        }
    }

    // The version at which all that was read is still there.
    [[gnu::noinline]] Word validate()
    {
        for (;;) {
            const Word now = even_sequence();
            for (const Written& read : reads_) {
                Steps::step();
                if (words_[read.addr].load(std::memory_order_acquire) != read.value)
                    exit_.leave(CHANGED, read.addr);
            }
            if (sequence_.load(std::memory_order_relaxed) == now)
                return now;
        }
    }

    enum Conflict : unsigned { CHANGED };

    std::atomic<Word>* words_;
    std::atomic<Word>& sequence_;
    Word snapshot_ = 0;
    WriteLog writes_;
    // Each word that was read, and what was found.
    std::vector<Written> reads_;
    bool is_writer_ = false;
    Exit& exit_;
};

} // namespace vacation

int main(int count, char** words)
{
    using namespace vacation;
    return run_peer<AttemptRuntime<NorecAttempt<Straight>>, AttemptRuntime<NorecAttempt<Jittered>>>(
        count, words);
}
