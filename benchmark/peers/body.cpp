// The library of include/vacation_body.h: the bodies of tasks, which stop at each access. A body runs
// on a stack of its own, and goes back to its caller for each word.
#include "vacation_body.h"

#include "lines.hpp"
#include "manager.hpp"
#include "watch.hpp"

#include <algorithm>
#include <atomic>
#include <memory>
#include <new>
#include <string>
#include <vector>

#include <ucontext.h>

using namespace vacation;

// The words of the system, as far as `vacation_words` was called.
static std::atomic<std::size_t> words_of_all{words_of(MOST_BLOCKS)};

struct vacation_body {
    explicit vacation_body(unsigned client) : start(client == 0 ? 0 : (client - 1) % LISTS) {}

    // Stops the body at this access or end, until the caller goes on.
    void stop(int what_now)
    {
        what = what_now;
        ::swapcontext(&inside, &outside);
    }

    // (the caller gives a lost attempt up, and does not go on with it)
    [[noreturn]] void lose()
    {
        for (;;)
            stop(VACATION_LOST);
    }

    void access(int what_now, Addr at)
    {
        if (at >= words_of_all.load(std::memory_order_relaxed) || ++accesses > most)
            lose();
        addr = at;
        stop(what_now);
    }

    unsigned start;
    std::string line;
    std::vector<Command> parts;
    Task task{};
    Reply reply;
    std::string text;

    ucontext_t inside, outside;
    bool is_begun = false;
    int what = VACATION_DONE;
    Addr addr = 0;
    Word value = 0;
    std::size_t accesses = 0, most = 0;
    static constexpr std::size_t STACK_BYTES = 1 << 18;
    std::unique_ptr<char[]> stack{new char[STACK_BYTES]};
};

namespace {

// A memory each of whose accesses is the caller's.
struct PulledMemory {
    vacation_body* body;

    Word read(Addr addr) const
    {
        body->access(VACATION_READ, addr);
        return body->value;
    }

    void write(Addr addr, Word value) const
    {
        body->value = value;
        body->access(VACATION_WRITE, addr);
    }

    [[noreturn]] void abandon() const { body->lose(); }
};

thread_local vacation_body* entered;

void run_entered()
{
    vacation_body* body = entered;
    run_task(PulledMemory{body}, body->start, body->task, body->reply);
    for (;;)
        body->stop(VACATION_DONE);
}

void begin(vacation_body* body)
{
    body->is_begun = true;
    ::getcontext(&body->inside);
    body->inside.uc_stack.ss_sp = body->stack.get();
    body->inside.uc_stack.ss_size = vacation_body::STACK_BYTES;
    body->inside.uc_link = nullptr;
    ::makecontext(&body->inside, run_entered, 0);
    entered = body;
}

} // namespace

extern "C" {

struct vacation_body* vacation_body_new(unsigned client)
{
    return new (std::nothrow) vacation_body(client);
}

void vacation_body_free(struct vacation_body* body)
{
    delete body;
}

int vacation_start(struct vacation_body* body, const char* line)
{
    body->is_begun = false;
    body->accesses = 0;
    body->most = most_accesses(words_of_all.load(std::memory_order_relaxed));
    if (line == nullptr)
        return 0;
    body->line = line;
    body->parts.clear();
    const auto task = read_task(body->line, body->parts);
    if (!task)
        return 1;
    body->task = *task;
    body->task.parts = body->parts.data();
    return 0;
}

int vacation_next(struct vacation_body* body, uint64_t answer)
{
    if (!body->is_begun)
        begin(body);
    else if (body->what == VACATION_READ)
        body->value = answer;
    ::swapcontext(&body->outside, &body->inside);
    return body->what;
}

uint32_t vacation_addr(const struct vacation_body* body)
{
    return body->addr;
}

uint64_t vacation_value(const struct vacation_body* body)
{
    return body->value;
}

const char* vacation_reply(struct vacation_body* body)
{
    body->text = text_of(body->task, body->reply);
    return body->text.c_str();
}

uint64_t vacation_words(uint64_t blocks, uint64_t* words)
{
    const Words made = spread_words(static_cast<std::uint32_t>(blocks));
    words_of_all.store(made.size());
    if (words != nullptr)
        std::copy(made.begin(), made.end(), words);
    return made.size();
}
}
