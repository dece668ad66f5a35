// A peer: one spinning lock that is elided (Rajwar, Goodman, MICRO 2001): a task runs as a
// transaction of the processor that only looks at the lock, and takes it where that fails a few
// times. For x86 processors with RTM.
#include "attempts.hpp"
#include "driver.hpp"
#include "heap.hpp"
#include "manager.hpp"
#include "spin.hpp"
#include "watch.hpp"

#include <immintrin.h>

#include <mutex>
#include <utility>

namespace vacation {

class ElidedRuntime {
public:
    static constexpr std::array<std::string_view, 4> CONFLICTS{"conflict", "capacity", "lock-held",
                                                               "other"};

    class alignas(APART) Client {
    public:
        Client(ElidedRuntime& runtime, const Seat& seat) : runtime_(&runtime), seat_(seat) {}

        bool call(const Task& task, Reply& reply, unsigned)
        {
            const PlainMemory memory(runtime_->words_.data());
            if (seat_.watch == nullptr) {
                run(memory, task, reply);
                return true;
            }
            seat_.watch->begin();
            run(Watched<PlainMemory>{memory, seat_.watch}, task, reply);
            seat_.watch->end(true, place_);
            return true;
        }

        Word place() const { return place_; }
        const Attempts& attempts() const { return attempts_; }

    private:
        enum Conflict : unsigned { CONFLICT, CAPACITY, LOCK_HELD, OTHER };
        static constexpr unsigned MOST_ELISIONS = 8;
        static constexpr unsigned LOCK_WAS_HELD = 1;

        template <class Memory>
        void run(Memory memory, const Task& task, Reply& reply)
        {
            for (unsigned i = 0; i < MOST_ELISIONS; ++i) {
                ++attempts_.begun;
                const unsigned status = _xbegin();
                if (status == _XBEGIN_STARTED) {
                    if (runtime_->lock_.is_held())
                        _xabort(LOCK_WAS_HELD);
                    do_task(memory, task, reply);
                    _xend();
                    return;
                }
                count(status);
                runtime_->lock_.wait_until_free();
            }
            ++attempts_.begun;
            const std::lock_guard<SpinLock> guard(runtime_->lock_);
            do_task(memory, task, reply);
        }

        // (Where the order is asked for, all count one word up, within the transaction or under
        // the lock.)
        template <class Memory>
        void do_task(Memory memory, const Task& task, Reply& reply)
        {
            if (seat_.watch != nullptr)
                seat_.watch->start();
            run_task(memory, seat_.start, task, reply);
            if (runtime_->is_ordered_)
                place_ = ++runtime_->calls_;
        }

        void count(unsigned status)
        {
            const bool held = status & _XABORT_EXPLICIT && _XABORT_CODE(status) == LOCK_WAS_HELD;
            const Conflict why = held                          ? LOCK_HELD
                                 : status & _XABORT_CAPACITY   ? CAPACITY
                                 : status & _XABORT_CONFLICT   ? CONFLICT
                                                               : OTHER;
            attempts_.count(why, std::nullopt);
        }

        ElidedRuntime* runtime_;
        Seat seat_;
        Word place_ = 0;
        Attempts attempts_;
    };

    ElidedRuntime(Words words, bool is_ordered)
        : words_(std::move(words)), is_ordered_(is_ordered)
    {
    }

    Words words() { return std::move(words_); }

private:
    alignas(APART) SpinLock lock_;
    alignas(APART) Word calls_ = 0;
    alignas(APART) Words words_;
    bool is_ordered_;
};

} // namespace vacation

int main(int count, char** words)
{
    return vacation::run_peer<vacation::ElidedRuntime>(count, words);
}
