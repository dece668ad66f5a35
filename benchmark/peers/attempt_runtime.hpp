// The loop of tries: a runtime made of attempts that may meet a conflict. Whoever has a
// transactional memory writes a class `Attempt`:
//
//     using Shared = ..;                   // what all clients share: Shared(const Words&, bool),
//                                          // and Words copy_words() const
//     static constexpr std::array<std::string_view, N> CONFLICTS{..};   // their names
//
//     Attempt(Shared&, Exit&);             // one for each client, made and used in its thread
//     void begin();                        // an attempt begins; what was before is over
//     Word read(Addr);                     // these and `begin` may leave by
//     void write(Addr, Word);              // exit.leave(CONFLICT, addr), as may ..
//     bool commit();                       // .. this one, which also ends by
//                                          // `return exit.fail(CONFLICT, addr)`
//     Word place() const;                  // of the attempt that has ended: `2 * v` for a writer
//                                          // of version v, `2 * v + 1` for one that only read at
//                                          // version v; for one that met a conflict, even at its
//                                          // begin, `2 * v + 1` where its reads are of version v
//     void undo();                         // not needed: of an attempt that is abandoned. Gives back
//                                          // the locks that it holds, and what it has written
//
// An attempt that leaves is at its end: no lock may be held then. One is abandoned where what it has
// read leads its body to where no state of the heap leads: its runtime is not opaque, or is wrong. No body holds anything that must
// be destroyed. CONFLICT is an index into CONFLICTS, of which there are 8 at most. The second
// argument of `Shared` says whether the order of the calls will be asked for; a runtime that knows
// it only by counting then counts. `Word`, `Addr` and `Words` are those of heap.hpp. All is in the
// namespace `vacation`. The program is
//
//     #include "attempt_runtime.hpp"
//     #include "driver.hpp"
//     int main(int count, char** words)
//     {
//         return vacation::run_peer<vacation::AttemptRuntime<Attempt>>(count, words);
//     }
#pragma once

#include "attempts.hpp"
#include "heap.hpp"
#include "manager.hpp"
#include "pause.hpp"
#include "watch.hpp"

#include <type_traits>
#include <utility>

#include <setjmp.h>

namespace vacation {

// The way out of an attempt that met a conflict.
class Exit {
public:
    // A jump to where the attempt began. The address is that of the word which was met, or of its
    // stripe, where there is one.
    [[noreturn, gnu::cold, gnu::noinline]] void leave(unsigned conflict,
                                                      std::optional<Addr> addr = std::nullopt)
    {
        attempts_.count(conflict, addr);
        ::siglongjmp(way_out_, 1);
    }

    // The same for one that is abandoned.
    [[noreturn, gnu::cold, gnu::noinline]] void abandon()
    {
        ++attempts_.abandoned;
        ::siglongjmp(way_out_, 1);
    }

    [[gnu::cold]] bool fail(unsigned conflict, std::optional<Addr> addr = std::nullopt)
    {
        attempts_.count(conflict, addr);
        return false;
    }

    sigjmp_buf& way_out() { return way_out_; }
    void count_attempt() { ++attempts_.begun; }
    void count_lost() { attempts_.is_lost = true; }
    const Attempts& attempts() const { return attempts_; }

private:
    Attempts attempts_;
    sigjmp_buf way_out_;
};

template <class Attempt, class = void>
struct HasUndo : std::false_type {};
template <class Attempt>
struct HasUndo<Attempt, std::void_t<decltype(std::declval<Attempt&>().undo())>> : std::true_type {};

// The attempts of a client, one after the other, and their way out.
template <class Attempt>
struct Attempting {
    explicit Attempting(typename Attempt::Shared& shared) : attempt(shared, exit) {}

    Exit exit;
    Attempt attempt;
};

// An attempt as the memory of its task.
template <class Attempt>
struct AttemptMemory {
    Attempting<Attempt>* now;

    Word read(Addr addr) const { return now->attempt.read(addr); }
    void write(Addr addr, Word value) const { now->attempt.write(addr, value); }

    [[noreturn]] void abandon() const
    {
        if constexpr (HasUndo<Attempt>::value)
            now->attempt.undo();
        now->exit.abandon();
    }
};

template <class Attempt>
struct AttemptRuntime {
    static constexpr auto CONFLICTS = Attempt::CONFLICTS;

    class alignas(APART) Client {
    public:
        Client(AttemptRuntime& runtime, const Seat& seat)
            : now_(runtime.shared_), seat_(seat), backoff_(seat.number)
        {
        }

        bool call(const Task& task, Reply& reply, unsigned tries)
        {
            const Word abandoned = attempts().abandoned;
            for (unsigned tried = 1; !attempt(task, reply); ++tried) {
                if (attempts().abandoned == abandoned + MOST_ABANDONED_IN_TURN)
                    now_.exit.count_lost();
                if (tried == tries || attempts().is_lost)
                    return false;
                backoff_.wait(tried);
            }
            return true;
        }

        Word place() const { return now_.attempt.place(); }
        const Attempts& attempts() const { return now_.exit.attempts(); }

    private:
        bool attempt(const Task& task, Reply& reply)
        {
            now_.exit.count_attempt();
            if (seat_.watch == nullptr)
                return is_done(AttemptMemory<Attempt>{&now_}, task, reply);
            seat_.watch->begin();
            seat_.watch->start();
            const Watched<AttemptMemory<Attempt>> memory{{&now_}, seat_.watch};
            const bool done = is_done(memory, task, reply);
            seat_.watch->end(done, now_.attempt.place());
            return done;
        }

        // (nothing of this function's own changes between the two returns of `sigsetjmp`)
        template <class Memory>
        [[gnu::noinline]] bool is_done(Memory memory, const Task& task, Reply& reply)
        {
            if (sigsetjmp(now_.exit.way_out(), 0) != 0)
                return false;
            now_.attempt.begin();
            run_task(memory, seat_.start, task, reply);
            if (seat_.watch != nullptr)
                seat_.watch->step();
            return now_.attempt.commit();
        }

        Attempting<Attempt> now_;
        Seat seat_;
        Backoff backoff_;
    };

    AttemptRuntime(const Words& words, bool is_ordered) : shared_(words, is_ordered) {}

    Words words() const { return shared_.copy_words(); }

private:
    typename Attempt::Shared shared_;
};

} // namespace vacation
