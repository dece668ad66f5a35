// Waiting a little: in a loop for a lock (`Pause`), and between the tries of a call (`Backoff`).
#pragma once

#include "pcg.hpp"

#include <algorithm>
#include <cstdint>
#include <thread>

namespace vacation {

// Tells the processor that its thread waits in a loop.
inline void relax()
{
#if defined(__x86_64__) || defined(__i386__)
    __builtin_ia32_pause();
#elif defined(__aarch64__)
    asm volatile("yield");
#endif
}

inline void relax(unsigned turns)
{
    for (unsigned turn = 0; turn < turns; ++turn)
        relax();
}

// Waits for a lock, longer each time.
class Pause {
public:
    // First 1 turn, then twice as many each time up to 64; after that the processor is given to
    // another thread, which may be the one that is waited for.
    void wait()
    {
        if (step_ > MOST_DOUBLINGS)
            return std::this_thread::yield();
        relax(1u << step_);
        ++step_;
    }

private:
    static constexpr unsigned MOST_DOUBLINGS = 6;
    unsigned step_ = 0;
};

// The pauses between the tries of a call, each drawn anew, so that clients that met do not stay in
// step. They are those of the proved program.
class Backoff {
public:
    explicit Backoff(std::uint64_t seed) : draws_(seed) {}

    // Waits behind this try of a call; they are counted from 1.
    void wait(unsigned tried)
    {
        if (tried < FIRST_DRAWN)
            return;
        const unsigned more = std::min(tried - FIRST_DRAWN, MORE_BITS);
        const unsigned stopped =
            std::min(std::max(tried, TRIES_OF_RUNNING) - TRIES_OF_RUNNING, STOPPED_BITS);
        const unsigned bits = FEWEST_BITS + more + stopped;
        relax(draws_.next() >> (32 - bits));
        if (tried >= FIRST_YIELD)
            std::this_thread::yield();
    }

private:
    static constexpr unsigned FIRST_DRAWN = 3;
    // So many bits of a number are the turns of the first pause that is drawn; later ones have up
    // to so many more, one for each try.
    static constexpr unsigned FEWEST_BITS = 4, MORE_BITS = 9;
    static constexpr unsigned FIRST_YIELD = 14;
    // After so many tries the client that was met has likely been stopped; then up to so many bits
    // more are the turns.
    static constexpr unsigned TRIES_OF_RUNNING = 19, STOPPED_BITS = 3;
    Draws draws_;
};

} // namespace vacation
