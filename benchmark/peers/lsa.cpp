// A peer: TL2 whose attempts extend their read version, and wait a little at a held lock.
#include "tl2.hpp"

int main(int count, char** words)
{
    using namespace vacation;
    return run_tl2<Ordering::LEAST, Reading::EXTENDING>(count, words);
}
