// The TL2 of tl2.hpp as a shared object with the C interface: what `peer` costs beside `tl2` is what
// the interface costs (benchmark/overhead.py).
#include "tl2.hpp"
#include "vacation_tm.h"

#include <algorithm>
#include <cstring>

using namespace vacation;

namespace {

using Attempt = Tl2Attempt<Ordering::LEAST, Reading::STRICT, Straight>;

struct Opened {
    Opened(Word* words, std::size_t count) : region(Words(words, words + count)), home(words) {}

    Tl2Region region;
    Word* home;
};

struct ObjectClient {
    explicit ObjectClient(Tl2Region& region) : attempt(region, exit) {}

    Exit exit;
    Attempt attempt;
};

Attempt& attempt_of(void* client)
{
    return static_cast<ObjectClient*>(client)->attempt;
}

} // namespace

extern "C" {

void* tm_open(std::uint64_t* words, std::size_t count)
{
    return new Opened(words, count);
}

void* tm_client(void* shared, unsigned)
{
    return new ObjectClient(static_cast<Opened*>(shared)->region);
}

// (an attempt of tl2.hpp leaves by its own buffer, which gets the driver's)
void tm_begin(void* client, sigjmp_buf* way_out)
{
    std::memcpy(&static_cast<ObjectClient*>(client)->exit.way_out(), way_out, sizeof *way_out);
    attempt_of(client).begin();
}

int tm_read(void* client, std::uint32_t addr, std::uint64_t* value)
{
    *value = attempt_of(client).read(addr);
    return 0;
}

int tm_write(void* client, std::uint32_t addr, std::uint64_t value)
{
    attempt_of(client).write(addr, value);
    return 0;
}

int tm_commit(void* client)
{
    return !attempt_of(client).commit();
}

std::uint64_t tm_place(void* client)
{
    return attempt_of(client).place();
}

void tm_close(void* shared)
{
    const auto* opened = static_cast<Opened*>(shared);
    const Words words = opened->region.copy_words();
    std::copy(words.begin(), words.end(), opened->home);
}
}
