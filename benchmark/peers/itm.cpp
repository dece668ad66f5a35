// A peer: GCC's transactional memory (libitm), by transactions of the language (ISO/IEC TS 19841).
// The library's method is named in the environment, by ITM_DEFAULT_METHOD.
#include "attempts.hpp"
#include "driver.hpp"
#include "manager.hpp"

#include <utility>

namespace vacation {

class ItmRuntime {
public:
    static constexpr auto CONFLICTS = NO_CONFLICTS;

    class alignas(APART) Client {
    public:
        Client(ItmRuntime& runtime, const Seat& seat) : runtime_(&runtime), seat_(seat) {}

        // The library tries again by itself, and without end.
        bool call(const Task& task, Reply& reply, unsigned)
        {
            const PlainMemory memory(runtime_->words_.data());
            if (seat_.watch != nullptr)
                run_watched({memory, seat_.watch}, task, reply);
            else if (runtime_->is_ordered_)
                run_and_count(memory, task, reply);
            else
                run(memory, task, reply);
            return true;
        }

        Word place() const { return place_; }
        const Attempts& attempts() const { return attempts_; }

    private:
        // The count of attempts is the client's own, and is not undone with an attempt that fails.
        PRIVATE_TO_THREAD void count_attempt() { ++attempts_.begun; }
        PRIVATE_TO_THREAD void set_place(Word place) { place_ = place; }

        void run(PlainMemory memory, const Task& task, Reply& reply)
        {
            const unsigned start = seat_.start;
            __transaction_atomic
            {
                count_attempt();
                run_task(memory, start, task, reply);
            }
        }

        // The library does not tell in which order its transactions took effect. So where that is
        // asked for, each counts up one word that all share, within the transaction: that is their
        // order.
        void run_and_count(PlainMemory memory, const Task& task, Reply& reply)
        {
            const unsigned start = seat_.start;
            Word* calls = &runtime_->calls_;
            __transaction_atomic
            {
                count_attempt();
                run_task(memory, start, task, reply);
                set_place(++*calls);
            }
        }

        // (Of an attempt that the library gave up nobody knows the place: it has no line.)
        void run_watched(Watched<PlainMemory> memory, const Task& task, Reply& reply)
        {
            const unsigned start = seat_.start;
            Word* calls = &runtime_->calls_;
            Watch* watch = seat_.watch;
            watch->begin();
            __transaction_atomic
            {
                count_attempt();
                watch->start();
                run_task(memory, start, task, reply);
                set_place(++*calls);
            }
            watch->end(true, place_);
        }

        ItmRuntime* runtime_;
        Seat seat_;
        Word place_ = 0;
        Attempts attempts_;
    };

    ItmRuntime(Words words, bool is_ordered) : words_(std::move(words)), is_ordered_(is_ordered) {}

    Words words() { return std::move(words_); }

private:
    Words words_;
    bool is_ordered_;
    alignas(APART) Word calls_ = 0;
};

} // namespace vacation

int main(int count, char** words)
{
    return vacation::run_peer<vacation::ItmRuntime>(count, words);
}
