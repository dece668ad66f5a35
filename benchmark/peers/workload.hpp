// The tasks as `vacation tasks` prints them: a line per task, `CLIENT LINE`. The tasks of client 0
// open the system.
#pragma once

#include "lines.hpp"
#include "task.hpp"

#include <charconv>
#include <cstdint>
#include <cstdio>
#include <map>
#include <stdexcept>
#include <string>
#include <string_view>
#include <vector>

namespace vacation {

// A task and the line that it was read from.
struct Call {
    Task task;
    std::string_view line;
};

// A client's tasks in their order, and the parts of these tasks, in the same order.
struct ClientCalls {
    std::uint32_t client;
    std::vector<Call> calls;
    std::vector<Command> parts;
};

class Workload {
public:
    // The first `clients` clients are there also where they have no line. Throws what is wrong with
    // a line that is no task of a client.
    explicit Workload(std::string text, std::uint32_t clients = 0) : text_(std::move(text))
    {
        for (std::uint32_t client = 1; client <= clients; ++client)
            calls_of(client);
        std::string_view rest = text_;
        for (std::size_t number = 1; !rest.empty(); ++number) {
            const std::size_t end = rest.find('\n');
            if (!add_line(rest.substr(0, end)))
                throw std::runtime_error("line " + std::to_string(number) + " is no task");
            rest.remove_prefix(end == std::string_view::npos ? rest.size() : end + 1);
        }
        place_parts();
    }

    Workload(const Workload&) = delete;
    Workload& operator=(const Workload&) = delete;

    // The opening, client 0, comes first, also where it has no tasks.
    const std::vector<ClientCalls>& clients() const { return clients_; }

private:
    bool add_line(std::string_view line)
    {
        const std::size_t space = line.find(' ');
        if (space == std::string_view::npos)
            return false;
        std::uint32_t client = 0;
        const auto [end, error] = std::from_chars(line.data(), line.data() + space, client);
        if (error != std::errc{} || end != line.data() + space)
            return false;
        const std::string_view text = line.substr(space + 1);
        ClientCalls& calls = calls_of(client);
        const auto task = read_task(text, calls.parts);
        if (task)
            calls.calls.push_back({*task, text});
        return task.has_value();
    }

    ClientCalls& calls_of(std::uint32_t client)
    {
        const auto [place, is_new] = places_.try_emplace(client, clients_.size());
        if (is_new)
            clients_.push_back({client, {}, {}});
        return clients_[place->second];
    }

    // Tells each task where its parts stand, once they move no more.
    void place_parts()
    {
        for (ClientCalls& client : clients_) {
            const Command* next = client.parts.data();
            for (Call& call : client.calls) {
                call.task.parts = next;
                next += call.task.len;
            }
        }
    }

    std::string text_;
    std::vector<ClientCalls> clients_{{0, {}, {}}};
    std::map<std::uint32_t, std::size_t> places_{{0, 0}};
};

inline std::string read_all(std::FILE* file)
{
    std::string text;
    char chunk[1 << 16];
    for (std::size_t len; (len = std::fread(chunk, 1, sizeof chunk, file)) != 0;)
        text.append(chunk, len);
    if (std::ferror(file))
        throw std::runtime_error("standard input cannot be read");
    return text;
}

} // namespace vacation
