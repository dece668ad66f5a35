// What an attempt keeps to itself: the stripes of what it has read, and what it has written.
#pragma once

#include "heap.hpp"

#include <algorithm>
#include <cstdint>
#include <memory>
#include <utility>
#include <vector>

namespace vacation {

// A list. (A vector would do; this one's growth stands apart, so that a push is three
// instructions.)
class ReadLog {
public:
    void clear() { size_ = 0; }
    std::size_t size() const { return size_; }
    const Addr* begin() const { return stripes_.get(); }
    const Addr* end() const { return stripes_.get() + size_; }

    void push(Addr stripe)
    {
        if (size_ == capacity_)
            grow();
        stripes_[size_++] = stripe;
    }

private:
    [[gnu::cold, gnu::noinline]] void grow()
    {
        std::unique_ptr<Addr[]> stripes(new Addr[2 * capacity_]);
        std::copy(begin(), end(), stripes.get());
        stripes_ = std::move(stripes);
        capacity_ *= 2;
    }

    std::size_t size_ = 0;
    std::size_t capacity_ = 1024;
    std::unique_ptr<Addr[]> stripes_{new Addr[capacity_]};
};

struct Written {
    Addr addr;
    Word value;
};

// A map from address to value: entries in the order in which they came, and an open-addressed
// index of them. A slot of the index counts only where it has the stamp of the attempt, so that
// clearing the log touches no slot.
class WriteLog {
public:
    WriteLog() : slots_(FIRST_SLOTS) {}

    bool empty() const { return entries_.empty(); }
    const std::vector<Written>& entries() const { return entries_; }

    void clear()
    {
        entries_.clear();
        if (++stamp_ == 0) {
            std::fill(slots_.begin(), slots_.end(), Slot{});
            stamp_ = 1;
        }
    }

    // The value of an address, or nothing.
    const Word* find(Addr addr) const
    {
        const Slot& slot = slots_[place_of(addr)];
        return slot.stamp == stamp_ ? &entries_[slot.entry].value : nullptr;
    }

    void put(Addr addr, Word value)
    {
        Slot& slot = slots_[place_of(addr)];
        if (slot.stamp == stamp_) {
            entries_[slot.entry].value = value;
            return;
        }
        slot = {stamp_, static_cast<std::uint32_t>(entries_.size())};
        entries_.push_back({addr, value});
        if (entries_.size() * 2 > slots_.size())
            grow();
    }

private:
    struct Slot {
        std::uint32_t stamp = 0;
        std::uint32_t entry = 0;
    };

    static constexpr std::size_t FIRST_SLOTS = 256;

    // The slot of an address, or the empty one in which it would stand.
    std::size_t place_of(Addr addr) const
    {
        const std::size_t mask = slots_.size() - 1;
        // (multiplied by 2^32 over the golden ratio, which spreads neighbours: Knuth, volume 3,
        // 6.4)
        std::size_t place = (addr * UINT32_C(2654435769)) >> 8 & mask;
        while (slots_[place].stamp == stamp_ && entries_[slots_[place].entry].addr != addr)
            place = (place + 1) & mask;
        return place;
    }

    void grow()
    {
        slots_.assign(slots_.size() * 2, Slot{});
        for (std::size_t i = 0; i < entries_.size(); ++i)
            slots_[place_of(entries_[i].addr)] = {stamp_, static_cast<std::uint32_t>(i)};
    }

    std::vector<Written> entries_;
    std::vector<Slot> slots_;
    std::uint32_t stamp_ = 1;
};

} // namespace vacation
