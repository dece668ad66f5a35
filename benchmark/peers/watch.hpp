// Looking on while attempts run, where that is asked for: a line for each attempt (`--attempts`),
// and pauses that are drawn between the steps of all clients (`--jitter`), so that these meet
// where they seldom do. An attempt that is looked at ends where its reads lead it to a word that the
// heap does not have, or around in a circle: only a runtime that is not opaque does that.
#pragma once

#include "heap.hpp"
#include "pause.hpp"

#include <chrono>
#include <cstdint>
#include <stdexcept>
#include <string>
#include <string_view>
#include <thread>
#include <vector>

#include <unistd.h>

namespace vacation {

// A reading of the one clock that all threads share.
inline Word nanoseconds()
{
    const auto now = std::chrono::steady_clock::now().time_since_epoch();
    return static_cast<Word>(std::chrono::duration_cast<std::chrono::nanoseconds>(now).count());
}

// A runtime that tells where its steps are, by `Steps::step()`, is built with each of these.
struct Straight {
    static void step() {}
};

// After most steps nothing, after some a few idle turns, and now and then the processor goes to
// another thread.
struct Jittered {
    static void seed(std::uint64_t seed) { draws = Draws(seed); }

    static void step()
    {
        const std::uint32_t drawn = draws.next();
        if (drawn % 64 == 0)
            std::this_thread::yield();
        else if (drawn % 16 == 1)
            relax(drawn >> 24);
    }

private:
    static inline thread_local Draws draws{0};
};

inline void write_all(int file, std::string_view text)
{
    while (!text.empty()) {
        const ssize_t written = ::write(file, text.data(), text.size());
        if (written < 0)
            throw std::runtime_error("a line cannot be written");
        text.remove_prefix(static_cast<std::size_t>(written));
    }
}

// More accesses than any task has over a heap of so many words. Most has a `leave`, which looks an
// item up for each booking, two blocks in all, or an `update` with 32 changes of deep tables.
constexpr std::size_t most_accesses(std::size_t words)
{
    return 16'384 + 8 * words;
}

// What looks on at one client's attempts.
class Watch {
public:
    static constexpr int NO_FILE = -1;

    // Each attempt's line goes to the file as soon as the attempt has ended, behind its place and
    // its beginning. The heap has so many words.
    Watch(std::uint32_t client, bool jitters, int file, std::size_t words)
        : client_(client), jitters_(jitters), file_(file), words_(words)
    {
    }

    // To be called before an attempt begins, ..
    PRIVATE_TO_THREAD void begin()
    {
        if (file_ != NO_FILE)
            begin_ = nanoseconds();
    }
    // .. when its body begins, ..
    PRIVATE_TO_THREAD void start()
    {
        seen_.clear();
        accesses_ = 0;
    }
    // .. before it reads or writes a word (false: it must not), ..
    PRIVATE_TO_THREAD bool may_access(Addr addr)
    {
        return addr < words_ && ++accesses_ <= most_accesses(words_);
    }
    // .. between the steps of its body, ..
    PRIVATE_TO_THREAD void step()
    {
        if (jitters_)
            Jittered::step();
    }
    // .. when it has read or written a word, ..
    PRIVATE_TO_THREAD void saw(Addr addr, Word value) { see('r', addr, value); }
    PRIVATE_TO_THREAD void wrote(Addr addr, Word value) { see('w', addr, value); }
    // .. and when it has ended.
    void end(bool committed, Word place)
    {
        if (file_ == NO_FILE)
            return;
        const Word end = nanoseconds();
        const std::string begin = std::to_string(begin_);
        std::string text = std::to_string(place) + ' ' + begin + ' ' + std::to_string(client_) +
                           ' ' + begin + ' ' + std::to_string(end) +
                           (committed ? " commit" : " abort");
        for (const Seen& seen : seen_) {
            text.append({' ', seen.what, ' '}).append(std::to_string(seen.addr)).append(" ");
            text.append(std::to_string(seen.value));
        }
        write_all(file_, text.append("\n"));
    }

private:
    struct Seen {
        char what;
        Addr addr;
        Word value;
    };

    void see(char what, Addr addr, Word value)
    {
        if (file_ != NO_FILE)
            seen_.push_back({what, addr, value});
    }

    std::uint32_t client_;
    bool jitters_;
    int file_;
    std::size_t words_;
    std::size_t accesses_ = 0;
    Word begin_ = 0;
    std::vector<Seen> seen_;
};

// What a client is made of beside its runtime: its number, the free list from which on its new
// entries take their blocks, and who looks on, if anyone does.
struct Seat {
    std::uint32_t number;
    unsigned start;
    Watch* watch;
};

// A memory whose reads and writes are looked at.
template <class Memory>
struct Watched {
    Memory memory;
    Watch* watch;

    Word read(Addr addr) const
    {
        look(addr);
        const Word value = memory.read(addr);
        watch->saw(addr, value);
        return value;
    }

    void write(Addr addr, Word value) const
    {
        look(addr);
        memory.write(addr, value);
        watch->wrote(addr, value);
    }

    [[noreturn]] void abandon() const { memory.abandon(); }

private:
    void look(Addr addr) const
    {
        if (!watch->may_access(addr))
            memory.abandon();
        watch->step();
    }
};

} // namespace vacation
