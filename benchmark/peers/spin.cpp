// A peer: one lock around each task that is waited for in a loop.
#include "driver.hpp"
#include "locked.hpp"
#include "spin.hpp"

int main(int count, char** words)
{
    return vacation::run_peer<vacation::LockedRuntime<vacation::SpinLock>>(count, words);
}
