// What all peers do alike: the command line, reading or drawing the tasks, running the opening and
// then each client in a thread, timing, looking after them, and what is written.
//
// A peer is a class `Runtime`, made from the words of an empty heap and whether the order of its
// calls will be asked for, with
//
//     static constexpr .. CONFLICTS;   // the names of its conflicts (attempts.hpp)
//     class Client;                    // Client(Runtime&, const Seat&)
//     Words words();                   // once no client calls any more
//
// A client is made in its thread and need not be movable. It has
//
//     bool call(const Task&, Reply&, unsigned tries);  // false: given up after so many attempts
//     Word place() const;                              // of the call that was answered
//     const Attempts& attempts() const;
//
// A call is one transaction. Its place is that in the order in which the calls of all clients took
// effect; calls with equal places may stand in any order. A runtime with versions has `2 * v` for
// a call that wrote version v and `2 * v + 1` for one that read it and wrote nothing: so the
// writer of a version stands before its readers, and these before the next writer. One that
// counts its calls under a lock has that count.
//
// The program is `return run_peer<Runtime>(count, words);` in `main`. A runtime of attempts that
// may meet conflicts writes these alone (attempt_runtime.hpp).
#pragma once

#include "attempts.hpp"
#include "board.hpp"
#include "draws.hpp"
#include "history.hpp"
#include "lookout.hpp"
#include "manager.hpp"
#include "options.hpp"
#include "watch.hpp"
#include "workload.hpp"

#include <atomic>
#include <cstdio>
#include <exception>
#include <optional>
#include <stdexcept>
#include <string>
#include <thread>
#include <vector>

#include <signal.h>
#if defined(__linux__)
#include <sys/prctl.h>
#endif
#include <sys/wait.h>
#include <unistd.h>

namespace vacation {

// ---- the clients

// Holds threads back until all of them stand ready.
class StartLine {
public:
    void wait_for(unsigned threads) const
    {
        while (ready_.load() != threads)
            std::this_thread::yield();
    }
    void start() { started_.store(true); }
    void stand_ready()
    {
        ready_.fetch_add(1);
        while (!started_.load())
            std::this_thread::yield();
    }

private:
    std::atomic<unsigned> ready_{0};
    std::atomic<bool> started_{false};
};

// Has the compiler take it that a reply is looked at, so that no run leaves out making it.
inline void look_at(const Reply& reply)
{
    asm volatile("" : : "r"(&reply) : "memory");
}

// Has the call stand as pending in this room of the history. All of its steps come later, so that
// whoever has seen one of them has the call in the history, also if the process ends in between.
inline void begin_pending(Answered& room, const Call* call)
{
    room.begin = nanoseconds();
    std::atomic_thread_fence(std::memory_order_release);
    room.call = call;
    std::atomic_thread_fence(std::memory_order_seq_cst);
}

// One call; where a history is kept, it stands there from its beginning on, and remains if it was
// answered.
template <class Client>
void run_call(Client& client, const Task& task, const Call* call, const Options& options,
              Progress& progress)
{
    Answered* room = nullptr;
    if (options.history) {
        room = progress.history + progress.answered.load(std::memory_order_relaxed);
        begin_pending(*room, call);
    }
    Reply reply;
    const bool answered = client.call(task, reply, static_cast<unsigned>(options.tries));
    look_at(reply);
    if (room != nullptr && answered)
        *room = {client.place(), room->begin, nanoseconds(), call, reply};
    else if (room != nullptr)
        room->call = nullptr;
    auto& count = answered ? progress.answered : progress.given_up;
    count.store(count.load(std::memory_order_relaxed) + 1, std::memory_order_release);
}

// The calls of a client, of tasks that were read.
template <class Client>
void run_read(Client& client, const Run& run, std::size_t number)
{
    for (const Call& call : run.calls[number].calls) {
        run_call(client, call.task, &call, run.options, run.progress[number]);
        if (client.attempts().is_lost)
            break;
    }
}

// The same, each task drawn right before its call. Those of a history are there as calls, too.
template <class Client>
void run_drawn(Client& client, const Run& run, std::size_t number)
{
    const Call* calls = run.options.history ? run.calls[number].calls.data() : nullptr;
    TaskDraws draws(run.options.drawn, run.calls[number].client);
    for (std::uint64_t i = 0; i < run.options.drawn.tasks && !client.attempts().is_lost; ++i) {
        const Call* call = calls == nullptr ? nullptr : calls + i;
        run_call(client, draws.next(), call, run.options, run.progress[number]);
    }
}

// The whole life of a client, in its thread. The opening is client 0.
template <class Runtime>
void run_client(Runtime& runtime, const Run& run, std::size_t number, StartLine& line)
{
    const std::uint32_t name = run.calls[number].client;
    Jittered::seed(run.options.jitter * 1'000'003 + number);
    Watch watch(name, run.options.jitter != 0, run.files[number], words_of(run.options.blocks));
    const Seat seat{static_cast<std::uint32_t>(number),
                    number == 0 ? 0 : static_cast<unsigned>(number - 1) % LISTS,
                    run.options.is_watched() ? &watch : nullptr};
    typename Runtime::Client client(runtime, seat);
    Progress& progress = run.progress[number];
    if (number != 0)
        line.stand_ready();
    if (number != 0 && run.options.draw)
        run_drawn(client, run, number);
    else
        run_read(client, run, number);
    progress.attempts = client.attempts();
    progress.ended.store(nanoseconds());
}

// Runs the clients in threads. Their time is that from when all stand ready to the last answer.
template <class Runtime>
void run_clients(Runtime& runtime, const Run& run)
{
    StartLine line;
    std::vector<std::thread> threads;
    for (std::size_t i = 1; i < run.calls.size(); ++i)
        threads.emplace_back([&, i] { run_client(runtime, run, i, line); });
    line.wait_for(static_cast<unsigned>(threads.size()));
    run.board.begun.store(nanoseconds());
    line.start();
    for (std::thread& thread : threads)
        thread.join();
}

// The words that the clients left, for the report. A memory that is wrong may have left words that
// are no state of the heap: then a walk leads out of it, or around in a circle.
class LeftMemory {
public:
    LeftMemory(const Words& words, std::size_t& accesses) : words_(&words), accesses_(&accesses) {}

    Word read(Addr addr) const
    {
        if (addr >= words_->size() || ++*accesses_ > most_accesses(words_->size()))
            abandon();
        return (*words_)[addr];
    }

    [[noreturn]] void abandon() const
    {
        throw std::runtime_error("the words that the clients left are no state of the heap");
    }

private:
    const Words* words_;
    std::size_t* accesses_;
};

// All of the child process: the opening, the clients, and the report of what they left.
template <class Runtime>
int run_child(const Run& run)
{
    const auto blocks = static_cast<std::uint32_t>(run.options.blocks);
    Runtime runtime(spread_words(blocks), run.options.history || run.options.attempts);
    StartLine none;
    run_client(runtime, run, 0, none);
    run_clients(runtime, run);
    const Words words = runtime.words();
    std::size_t accesses = 0;
    run.board.report = report(LeftMemory(words, accesses));
    run.board.is_reported.store(true);
    return 0;
}

// ---- what is written

inline double seconds_of(const Run& run)
{
    Word last = run.board.begun.load();
    for (std::size_t i = 1; i < run.calls.size(); ++i)
        last = std::max(last, run.progress[i].ended.load());
    return static_cast<double>(last - run.board.begun.load()) / 1e9;
}

// The tally and the report as `vacation load` writes them, and on standard error a line of
// numbers and one with the answers of each whole second.
template <class Names>
void print_end(const Run& run, const End& end, const Names& conflicts, std::FILE* file)
{
    Word answered = 0, given_up = 0;
    Attempts attempts;
    for (std::size_t i = 1; i < run.calls.size(); ++i) {
        answered += run.progress[i].answered.load();
        given_up += run.progress[i].given_up.load();
        attempts += run.progress[i].attempts;
    }
    std::fprintf(file, "answered %llu busy %llu memory 0 spent 0\n",
                 static_cast<unsigned long long>(answered),
                 static_cast<unsigned long long>(given_up));
    if (run.board.is_reported.load())
        std::fprintf(file, "%s\n", text_of(run.board.report).c_str());
    const double seconds = seconds_of(run);
    const double rate = seconds > 0 ? static_cast<double>(answered) / seconds : 0;
    const double share = answered > 0 ? static_cast<double>(attempts.begun) / answered : 0;
    std::fprintf(stderr, "seconds %.6f tasks-per-second %.0f %s attempts-per-task %.3f\n", seconds,
                 rate, text_of(attempts, conflicts).c_str(), share);
    if (attempts.abandoned != 0)
        std::fprintf(stderr, "abandoned: %llu attempts had read words of different states of the heap, "
                             "which led to where no state leads: this memory is not opaque\n",
                     static_cast<unsigned long long>(attempts.abandoned));
    std::fprintf(stderr, "each-second");
    for (std::size_t i = 0; i < end.by_second.size(); ++i)
        std::fprintf(stderr, " %llu", static_cast<unsigned long long>(
                                          end.by_second[i] - (i == 0 ? 0 : end.by_second[i - 1])));
    std::fprintf(stderr, "\n");
}

inline std::string read_file(int file)
{
    std::string text;
    char chunk[1 << 16];
    ::lseek(file, 0, SEEK_SET);
    for (ssize_t len; (len = ::read(file, chunk, sizeof chunk)) > 0;)
        text.append(chunk, static_cast<std::size_t>(len));
    return text;
}

// The calls that had begun and not ended when the clients were ended.
inline void print_all_pending(const Run& run)
{
    for (std::size_t i = 0; i < run.calls.size(); ++i)
        if (const Answered* pending = run.progress[i].pending(run.calls[i].calls.size()))
            print_pending(run.calls[i].client, *pending);
}

// The history and the attempts as far as they are asked for, also where the child crashed.
inline void print_records(const Run& run)
{
    std::vector<HistoryLine> lines;
    std::vector<std::string> files;
    for (std::size_t i = 0; i < run.calls.size(); ++i) {
        const Progress& progress = run.progress[i];
        for (Word k = 0; run.options.history && k < progress.answered.load(); ++k)
            lines.push_back({run.calls[i].client, progress.history + k});
        if (run.options.attempts)
            files.push_back(read_file(run.files[i]));
    }
    if (run.options.history) {
        print_history(lines);
        print_all_pending(run);
    }
    if (run.options.attempts)
        print_attempts(spread_words(static_cast<std::uint32_t>(run.options.blocks)), files);
}

// Says how the run ended where it did not end well, and its status.
inline int print_fault(const End& end, const Options& options, const char* name)
{
    if (end.stood_still) {
        std::fprintf(stderr, "%s: %s for %llu seconds\n", name, end.stood_still->c_str(),
                     static_cast<unsigned long long>(options.patience));
        return STOOD_STILL;
    }
    if (WIFSIGNALED(end.status)) {
        std::fprintf(stderr, "%s: the clients were ended by signal %d\n", name,
                     WTERMSIG(end.status));
        return 1;
    }
    return WEXITSTATUS(end.status);
}

// Makes what parent and child share, before there are two of them.
inline Run make_run(const std::vector<ClientCalls>& calls, const Options& options)
{
    Run run{calls, options, *shared_values<Board>(1), shared_values<Progress>(calls.size()), {}};
    for (std::size_t i = 0; i < calls.size(); ++i) {
        if (options.history)
            run.progress[i].history = shared_room<Answered>(calls[i].calls.size());
        std::FILE* file = options.attempts ? std::tmpfile() : nullptr;
        if (options.attempts && file == nullptr)
            throw std::runtime_error("there is no room for the attempts");
        run.files.push_back(options.attempts ? ::fileno(file) : Watch::NO_FILE);
    }
    return run;
}

// Does this in a child process; what it throws is said.
template <class Does>
pid_t fork_child(const char* name, Does does)
{
    std::fflush(nullptr);
    const pid_t child = ::fork();
    if (child < 0)
        throw std::runtime_error("there is no process for the clients");
    if (child == 0) {
#if defined(__linux__)
        // (who ends the parent ends the child)
        ::prctl(PR_SET_PDEATHSIG, SIGKILL);
#endif
        int status = 1;
        try {
            status = does();
        } catch (const std::exception& error) {
            std::fprintf(stderr, "%s: %s\n", name, error.what());
        }
        std::fflush(nullptr);
        ::_exit(status);
    }
    return child;
}

// What the clients are to do, as far as it does not come by drawing.
inline std::string text_to_do(const Options& options)
{
    if (!options.draw && !options.print)
        return read_all(stdin);
    const bool is_whole = options.history || options.print;
    return drawn_opening(options.drawn) + (is_whole ? drawn_tasks(options.drawn) : "");
}

template <class Runtime, class Jittery>
int run(const Options& options, const char* name)
{
    const Workload workload(text_to_do(options),
                            options.draw ? static_cast<std::uint32_t>(options.drawn.clients) : 0);
    const Run run = make_run(workload.clients(), options);
    const pid_t child = fork_child(name, [&] {
        return options.jitter == 0 ? run_child<Runtime>(run) : run_child<Jittery>(run);
    });
    const End end = look_after(child, run);
    print_records(run);
    const bool to_errors = options.history || options.attempts;
    print_end(run, end, Runtime::CONFLICTS, to_errors ? stderr : stdout);
    return print_fault(end, options, name);
}

// The whole program of a peer. `Jittery` is the same runtime with its steps drawn apart, where it
// tells them (watch.hpp); else they are so between the reads and writes of a task alone.
template <class Runtime, class Jittery = Runtime>
int run_peer(int count, char** words, const Options& defaults = {})
{
    const auto options = read_options(count, words, defaults);
    if (!options) {
        std::fprintf(stderr, USAGE, words[0], defaults.operand);
        return 2;
    }
    int status = 1;
    try {
        if (options->print) {
            std::fputs(text_to_do(*options).c_str(), stdout);
            status = 0;
        } else {
            status = run<Runtime, Jittery>(*options, words[0]);
        }
    } catch (const std::exception& error) {
        std::fprintf(stderr, "%s: %s\n", words[0], error.what());
    }
    return std::fflush(stdout) != 0 || std::ferror(stdout) ? 1 : status;
}

} // namespace vacation
