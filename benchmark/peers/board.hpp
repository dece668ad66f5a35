// What the clients of a run and the process that looks after them share: the clients run in a
// child process, whose parent sees how far each is, also when they crash or stand still.
#pragma once

#include "attempts.hpp"
#include "history.hpp"
#include "options.hpp"
#include "task.hpp"
#include "workload.hpp"

#include <atomic>
#include <cstddef>
#include <new>
#include <vector>

#include <sys/mman.h>

namespace vacation {

// How far a client is. Its counts and its history are there as far as its calls have ended. Behind
// the answered calls of the history stands the one that is pending.
struct alignas(APART) Progress {
    std::atomic<Word> answered{0}, given_up{0};
    // The time of its last answer, once it has no more to do.
    std::atomic<Word> ended{0};
    Attempts attempts;
    Answered* history = nullptr;

    Word calls() const { return answered.load(std::memory_order_acquire) + given_up.load(); }

    // The call that has begun and not ended, where a history of so many calls at most is kept.
    const Answered* pending(std::size_t most) const
    {
        const Word count = answered.load(std::memory_order_acquire);
        return count < most && history[count].call != nullptr ? history + count : nullptr;
    }
};

struct Board {
    // The time at which all clients stood ready, and the first call began.
    std::atomic<Word> begun{0};
    // The report of what the clients left.
    std::atomic<bool> is_reported{false};
    Report report{};
};

// Room of so many values that stays with the parent when the child is gone.
template <class T>
T* shared_room(std::size_t count)
{
    const std::size_t bytes = (count == 0 ? 1 : count) * sizeof(T);
    void* room = ::mmap(nullptr, bytes, PROT_READ | PROT_WRITE,
                        MAP_SHARED | MAP_ANONYMOUS | MAP_NORESERVE, -1, 0);
    if (room == MAP_FAILED)
        throw std::bad_alloc();
    return static_cast<T*>(room);
}

template <class T>
T* shared_values(std::size_t count)
{
    T* values = shared_room<T>(count);
    for (std::size_t i = 0; i < count; ++i)
        new (values + i) T();
    return values;
}

// What parent and child have of a run.
struct Run {
    const std::vector<ClientCalls>& calls;
    const Options& options;
    Board& board;
    Progress* progress;
    // Of each client the file of its attempts.
    std::vector<int> files;
};

} // namespace vacation
