// A peer whose runtime is a shared object with the functions of include/vacation_tm.h:
// `peer OBJECT [OPTIONS]`, with the options of all peers. If no `--tries` is given, a task has so
// many attempts that none is given up, and the history has the whole workload.
#include "attempt_runtime.hpp"
#include "driver.hpp"
#include "vacation_tm.h"

#include <atomic>
#include <cstdio>
#include <stdexcept>
#include <string>
#include <string_view>

#include <dlfcn.h>

namespace vacation {

struct Functions {
    decltype(&tm_open) open;
    decltype(&tm_client) client;
    decltype(&tm_begin) begin;
    decltype(&tm_read) read;
    decltype(&tm_write) write;
    decltype(&tm_commit) commit;
    decltype(&tm_place) place;
    // Not every object has these.
    decltype(&tm_abandon) abandon;
    decltype(&tm_close) close;
};

// The object of the command line, and its functions once it is loaded.
static const char* object_name;
static Functions functions;
static bool is_jittered = false;

template <class Function>
void find_function(void* object, const char* name, Function& function)
{
    function = reinterpret_cast<Function>(::dlsym(object, name));
}

template <class Function>
void want_function(void* object, const char* name, Function& function)
{
    find_function(object, name, function);
    if (function == nullptr)
        throw std::runtime_error(std::string(object_name) + " has no function " + name);
}

// Called in the process of the clients: the runtimes of some languages do not survive a fork.
static void load_functions()
{
    void* object = ::dlopen(object_name, RTLD_NOW | RTLD_GLOBAL);
    if (object == nullptr)
        throw std::runtime_error(::dlerror());
    want_function(object, "tm_open", functions.open);
    want_function(object, "tm_client", functions.client);
    want_function(object, "tm_begin", functions.begin);
    want_function(object, "tm_read", functions.read);
    want_function(object, "tm_write", functions.write);
    want_function(object, "tm_commit", functions.commit);
    want_function(object, "tm_place", functions.place);
    find_function(object, "tm_abandon", functions.abandon);
    find_function(object, "tm_close", functions.close);
}

class ObjectShared {
public:
    ObjectShared(const Words& words, bool) : words_(words)
    {
        load_functions();
        shared_ = functions.open(words_.data(), words_.size());
    }

    // The number of a client, in the order in which they come: the opening is the first.
    void* make_client() { return functions.client(shared_, clients_++); }

    Words copy_words() const
    {
        if (functions.close != nullptr)
            functions.close(shared_);
        return words_;
    }

private:
    Words words_;
    void* shared_;
    std::atomic<unsigned> clients_{0};
};

class ObjectAttempt {
public:
    using Shared = ObjectShared;
    static constexpr std::array<std::string_view, 1> CONFLICTS{"conflict"};

    ObjectAttempt(Shared& shared, Exit& exit) : exit_(exit), client_(shared.make_client()) {}

    void begin()
    {
        // An attempt that ended by a jump of the object's own met a conflict, too.
        if (is_running_)
            exit_.fail(CONFLICT);
        is_running_ = true;
        functions.begin(client_, &exit_.way_out());
    }

    Word read(Addr addr)
    {
        Word value;
        if (functions.read(client_, addr, &value) != 0)
            leave(addr);
        return value;
    }

    void write(Addr addr, Word value)
    {
        if (functions.write(client_, addr, value) != 0)
            leave(addr);
    }

    bool commit()
    {
        const bool is_committed = functions.commit(client_) == 0;
        is_running_ = false;
        return is_committed || exit_.fail(CONFLICT);
    }

    void undo()
    {
        is_running_ = false;
        if (functions.abandon != nullptr)
            functions.abandon(client_);
    }

    Word place() const { return functions.place(client_); }

private:
    enum Conflict : unsigned { CONFLICT };

    [[noreturn]] void leave(Addr addr)
    {
        is_running_ = false;
        exit_.leave(CONFLICT, addr);
    }

    Exit& exit_;
    void* client_;
    bool is_running_ = false;
};

} // namespace vacation

// Called by the object between its steps.
extern "C" void vacation_step()
{
    if (vacation::is_jittered)
        vacation::Jittered::step();
}

int main(int count, char** words)
{
    using namespace vacation;
    Options defaults;
    defaults.tries = 1'000'000;
    defaults.operand = " OBJECT";
    if (count < 2 || words[1][0] == '-') {
        std::fprintf(stderr, USAGE, words[0], defaults.operand);
        return 2;
    }
    object_name = words[1];
    for (int i = 2; i < count; ++i)
        is_jittered |= std::string_view(words[i]) == "--jitter";
    words[1] = words[0];
    return run_peer<AttemptRuntime<ObjectAttempt>>(count - 1, words + 1, defaults);
}
