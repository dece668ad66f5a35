// A peer: one mutex of the operating system around each task.
#include "driver.hpp"
#include "locked.hpp"

#include <mutex>

int main(int count, char** words)
{
    return vacation::run_peer<vacation::LockedRuntime<std::mutex>>(count, words);
}
