// The parent of a run: it looks after the process of the clients, and ends it where one of them
// stands still.
#pragma once

#include "board.hpp"
#include "options.hpp"
#include "watch.hpp"

#include <chrono>
#include <optional>
#include <string>
#include <thread>
#include <vector>

#include <signal.h>
#include <sys/types.h>
#include <sys/wait.h>

namespace vacation {

// How the child ended: by itself, or because something stood still.
struct End {
    int status = 0;
    std::optional<std::string> stood_still;
    // Answers of all clients by the end of each whole second.
    std::vector<Word> by_second;
};

// Whether a client ends no call for too long, or the report no walk, and the answers by second.
class Lookout {
public:
    explicit Lookout(const Run& run)
        : run_(run), calls_(run.calls.size(), 0), since_(run.calls.size(), nanoseconds()),
          all_ended_(nanoseconds())
    {
    }

    std::optional<std::string> look(Word now)
    {
        bool have_ended = true;
        for (std::size_t i = 0; i < calls_.size(); ++i) {
            const Progress& progress = run_.progress[i];
            const bool waits = i != 0 && run_.board.begun.load() == 0;
            have_ended &= progress.ended.load() != 0;
            if (progress.calls() != calls_[i] || progress.ended.load() != 0 || waits) {
                calls_[i] = progress.calls();
                since_[i] = now;
            } else if (is_too_long(now - since_[i])) {
                return "client " + std::to_string(run_.calls[i].client) + " has answered nothing";
            }
        }
        if (!have_ended)
            all_ended_ = now;
        if (is_too_long(now - all_ended_))
            return "what the clients left has not been walked through";
        return std::nullopt;
    }

    void count_seconds(Word now, std::vector<Word>& by_second) const
    {
        const Word begun = run_.board.begun.load();
        if (begun == 0 || now < begun + (by_second.size() + 1) * 1'000'000'000)
            return;
        Word answered = 0;
        for (std::size_t i = 1; i < calls_.size(); ++i) {
            if (run_.progress[i].ended.load() != 0)
                return;
            answered += run_.progress[i].answered.load();
        }
        by_second.push_back(answered);
    }

private:
    bool is_too_long(Word nanos) const { return nanos > run_.options.patience * 1'000'000'000; }

    const Run& run_;
    std::vector<Word> calls_, since_;
    Word all_ended_;
};

inline End look_after(pid_t child, const Run& run)
{
    End end;
    Lookout lookout(run);
    while (::waitpid(child, &end.status, WNOHANG) == 0) {
        std::this_thread::sleep_for(std::chrono::milliseconds(5));
        const Word now = nanoseconds();
        lookout.count_seconds(now, end.by_second);
        end.stood_still = lookout.look(now);
        if (end.stood_still) {
            ::kill(child, SIGKILL);
            ::waitpid(child, &end.status, 0);
            break;
        }
    }
    return end;
}

} // namespace vacation
