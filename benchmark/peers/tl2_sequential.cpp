// A peer: the same TL2 in C++, with every step sequentially consistent.
#include "tl2.hpp"

int main(int count, char** words)
{
    using namespace vacation;
    return run_tl2<Ordering::SEQUENTIAL, Reading::STRICT>(count, words);
}
