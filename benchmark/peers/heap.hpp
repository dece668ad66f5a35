// The heap of words in which all peers keep their state, and its free blocks.
//
// A memory is anything with `Word read(Addr)`, `void write(Addr, Word)` and `void abandon()`, by
// value: a pointer to what does the work. Each peer has its own, and the code over it is the same
// for all: what differs between the peers is how a word is read and written, and what makes a task
// one transaction. `abandon` does not return: it ends an attempt whose walk is where no state of the
// heap leads, because its runtime let it read words of different states. `Words` begin on a cache line by `LineAllocator`, which other arrays of a peer have
// too; what its clients write apart stands `APART`.
#pragma once

#include <cstddef>
#include <cstdint>
#include <cstdlib>
#include <new>
#include <vector>

namespace vacation {

using Word = std::uint64_t;
// A word by its place. A block is known by its first word; 0 is no block.
using Addr = std::uint32_t;

// Under GCC's transactional memory every load and store in the body of a transaction goes through
// its library, unless the compiler sees that the word is no other thread's. A function that is
// marked touches only what its own thread can see (the task, the reply, a path through a table),
// and is called as it is, so that the library is measured on the words of the heap alone. After a
// conflict the body runs again from its beginning and sets these anew, so nothing in them must be
// undone.
#if defined(__cpp_transactional_memory)
#define PRIVATE_TO_THREAD __attribute__((transaction_pure))
#else
#define PRIVATE_TO_THREAD
#endif

// What different threads write stands this far apart, in bytes: processors fetch lines in pairs.
constexpr std::size_t APART = 128;

// A cache line has so many words.
constexpr std::size_t LINE_WORDS = 8;

// Memory that begins at a cache line, so that a block of eight words does not lie on two.
template <class T>
struct LineAllocator {
    using value_type = T;

    LineAllocator() = default;
    template <class U>
    LineAllocator(const LineAllocator<U>&) {}

    T* allocate(std::size_t count)
    {
        const std::size_t bytes = (count * sizeof(T) + APART - 1) / APART * APART;
        void* memory = std::aligned_alloc(APART, bytes);
        if (memory == nullptr)
            throw std::bad_alloc();
        return static_cast<T*>(memory);
    }
    void deallocate(T* memory, std::size_t) { std::free(memory); }

    template <class U>
    bool operator==(const LineAllocator<U>&) const { return true; }
    template <class U>
    bool operator!=(const LineAllocator<U>&) const { return false; }
};

using Words = std::vector<Word, LineAllocator<Word>>;

constexpr Addr FIRST_ROOT = 1;
constexpr Addr CUSTOMERS = 4;
constexpr Addr FIRST_HEAD = 8;
constexpr unsigned LISTS = 8;
constexpr Addr FIRST_BLOCK = 16;
constexpr Addr BLOCK_WORDS = 8;
constexpr std::uint32_t MOST_BLOCKS = 262'144;

// The most blocks that leave a list at once: one that is taken, and those that go to the list that
// had none.
constexpr unsigned RUN_BLOCKS = 64;

// How many words a heap of so many blocks has.
constexpr std::size_t words_of(std::size_t blocks)
{
    return FIRST_BLOCK + BLOCK_WORDS * blocks;
}

// The words of a heap of which every block is free: list 0 has the first eighth of the blocks,
// list 1 the next and so on, and each list ascends.
inline Words spread_words(std::uint32_t blocks)
{
    Words words(words_of(blocks), 0);
    std::uint32_t first = 0;
    for (unsigned list = 0; list < LISTS; ++list) {
        const std::uint32_t end = first + (blocks + LISTS - 1 - list) / LISTS;
        const auto link_to = [end](std::uint32_t block) -> Word {
            return block < end ? FIRST_BLOCK + BLOCK_WORDS * block : 0;
        };
        words[FIRST_HEAD + list] = link_to(first);
        for (; first < end; ++first)
            words[FIRST_BLOCK + BLOCK_WORDS * first] = link_to(first + 1);
    }
    return words;
}

// The block that a word leads to, or 0.
template <class Memory>
Addr follow(Memory memory, Addr link)
{
    return static_cast<Addr>(memory.read(link));
}

// The first block of list `from` is taken, and those behind it, as far as the run goes, become
// list `own`, which has none.
template <class Memory>
void refill(Memory memory, Addr own, Addr from, Addr block, Addr next)
{
    Addr last = block, behind = next;
    for (unsigned i = 1; i < RUN_BLOCKS && behind != 0; ++i) {
        last = behind;
        behind = follow(memory, last);
    }
    memory.write(from, behind);
    if (next != 0) {
        memory.write(last, 0);
        memory.write(own, next);
    }
}

// Takes the first block of list `start`, or of the next list that has one: then list `start` gets
// the blocks behind it, up to 63. 0 where all are empty.
template <class Memory>
Addr take(Memory memory, unsigned start)
{
    for (unsigned i = 0; i < LISTS; ++i) {
        const Addr head = FIRST_HEAD + (start + i) % LISTS;
        const Addr block = follow(memory, head);
        if (block != 0) {
            const Addr next = follow(memory, block);
            if (i == 0)
                memory.write(head, next);
            else
                refill(memory, FIRST_HEAD + start, head, block, next);
            return block;
        }
    }
    return 0;
}

// Gives a block back: it becomes the first of list `start`.
template <class Memory>
void give(Memory memory, unsigned start, Addr block)
{
    const Addr head = FIRST_HEAD + start;
    memory.write(block, memory.read(head));
    memory.write(head, block);
}

// The words themselves, without any transaction.
class PlainMemory {
public:
    explicit PlainMemory(Word* words) : words_(words) {}
    Word read(Addr addr) const { return words_[addr]; }
    void write(Addr addr, Word value) const { words_[addr] = value; }
    // (nothing leads out of one state: the state itself is broken)
    [[noreturn]] PRIVATE_TO_THREAD void abandon() const { std::abort(); }

private:
    Word* words_;
};

} // namespace vacation
