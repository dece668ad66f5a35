// Numbers that are drawn (PCG-XSH-RR, O'Neill 2014), the same ones from the same seed.
#pragma once

#include <cstdint>

namespace vacation {

class Draws {
public:
    // The numbers of this stream of the generator: `Lcg64Xsh32` of the crate `rand_pcg`.
    explicit Draws(std::uint64_t seed, std::uint64_t stream = 0)
        : increment_(stream << 1 | 1), state_(seed + increment_)
    {
        next();
    }

    std::uint32_t next()
    {
        const std::uint64_t old = state_;
        state_ = old * UINT64_C(6364136223846793005) + increment_;
        const auto mixed = static_cast<std::uint32_t>(((old >> 18) ^ old) >> 27);
        const auto turn = static_cast<unsigned>(old >> 59);
        return mixed >> turn | mixed << (-turn & 31);
    }

private:
    std::uint64_t increment_, state_;
};

} // namespace vacation
