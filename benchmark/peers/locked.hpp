// Peers with one lock around each task: what `Lock` is makes the difference.
#pragma once

#include "attempts.hpp"
#include "heap.hpp"
#include "manager.hpp"
#include "watch.hpp"

#include <mutex>
#include <utility>

namespace vacation {

template <class Lock>
class LockedRuntime {
public:
    static constexpr auto CONFLICTS = NO_CONFLICTS;

    class alignas(APART) Client {
    public:
        Client(LockedRuntime& runtime, const Seat& seat) : runtime_(&runtime), seat_(seat) {}

        bool call(const Task& task, Reply& reply, unsigned)
        {
            const PlainMemory memory(runtime_->words_.data());
            if (seat_.watch == nullptr)
                return run(memory, task, reply);
            seat_.watch->begin();
            seat_.watch->start();
            run(Watched<PlainMemory>{memory, seat_.watch}, task, reply);
            seat_.watch->end(true, place_);
            return true;
        }

        Word place() const { return place_; }
        const Attempts& attempts() const { return attempts_; }

    private:
        template <class Memory>
        bool run(Memory memory, const Task& task, Reply& reply)
        {
            ++attempts_.begun;
            const std::lock_guard<Lock> guard(runtime_->lock_);
            run_task(memory, seat_.start, task, reply);
            // (counted under the lock, so that the count is the order of the tasks)
            place_ = ++runtime_->calls_;
            return true;
        }

        LockedRuntime* runtime_;
        Seat seat_;
        Word place_ = 0;
        Attempts attempts_;
    };

    LockedRuntime(Words words, bool) : words_(std::move(words)) {}

    Words words() { return std::move(words_); }

private:
    // The lock and the count change with each task, so they share a line, and with nothing else.
    alignas(APART) Lock lock_;
    Word calls_ = 0;
    alignas(APART) Words words_;
};

} // namespace vacation
