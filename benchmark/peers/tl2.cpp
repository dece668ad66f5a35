// A peer: the same TL2 in C++, with no more order than it must have.
#include "tl2.hpp"

int main(int count, char** words)
{
    using namespace vacation;
    return run_tl2<Ordering::LEAST, Reading::STRICT>(count, words);
}
