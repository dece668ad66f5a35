// A lock that is waited for in a loop.
#pragma once

#include "pause.hpp"

#include <atomic>

namespace vacation {

class SpinLock {
public:
    // Acquire: what the task before has written is seen by this one.
    void lock()
    {
        while (held_.exchange(true, std::memory_order_acquire))
            wait_until_free();
    }

    // Release: what this task has written is seen by the next one.
    void unlock() { held_.store(false, std::memory_order_release); }

    bool is_held() const { return held_.load(std::memory_order_relaxed); }

    // Waits by loads alone: an exchange would take the line of the lock from its holder each time.
    void wait_until_free() const
    {
        Pause pause;
        while (is_held())
            pause.wait();
    }

private:
    std::atomic<bool> held_{false};
};

} // namespace vacation
