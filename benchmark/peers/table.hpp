// A table by key in a memory, as a red-black tree (Guibas and Sedgewick, FOCS 1978). A node is a
// block whose first four words are key, left, right and colour; the other four are the entry's
// own.
//
// Insertion and removal keep the way down as a path of links, so that no node has a word for its
// parent, and mend the tree along it upwards. A removal moves links, never what a block holds.
#pragma once

#include "heap.hpp"

#include <cstdint>

namespace vacation {

constexpr Addr KEY = 0;
constexpr Addr LEFT = 1;
constexpr Addr RIGHT = 2;
constexpr Addr COLOUR = 3;
constexpr Word BLACK = 0;
constexpr Word RED = 1;

inline Addr opposite(Addr side)
{
    return LEFT + RIGHT - side;
}

// The words that lead from the root down to a node. A link is the root word, or the left or right
// word of the node above; so it tells that node and the side.
class Path {
public:
    // The most links of a path. A tree of 262,144 nodes has at most 36 on a way down, so a longer
    // way is one through words of different states.
    static constexpr unsigned LEVELS = 40;

    PRIVATE_TO_THREAD Addr link(unsigned depth) const { return links_[depth]; }
    PRIVATE_TO_THREAD void set(unsigned depth, Addr link) { links_[depth] = link; }
    PRIVATE_TO_THREAD Addr side(unsigned depth) const { return links_[depth] % BLOCK_WORDS; }
    PRIVATE_TO_THREAD Addr parent(unsigned depth) const
    {
        return links_[depth] - links_[depth] % BLOCK_WORDS;
    }

private:
    Addr links_[LEVELS];
};

// Makes a link the next of a path, behind that at `depth`, and answers its depth.
template <class Memory>
unsigned push_link(Memory memory, Path& path, unsigned depth, Addr link)
{
    if (depth + 1 == Path::LEVELS)
        memory.abandon();
    path.set(depth + 1, link);
    return depth + 1;
}

// Where a way down ends: how many nodes are above, and the node, or 0.
struct WayDown {
    unsigned depth;
    Addr node;
};

// The block of a key, or 0.
template <class Memory>
Addr find(Memory memory, Addr root, Word key)
{
    Addr node = follow(memory, root);
    while (node != 0) {
        const Word found = memory.read(node + KEY);
        if (found == key)
            break;
        node = follow(memory, node + (key < found ? LEFT : RIGHT));
    }
    return node;
}

template <class Memory>
WayDown descend(Memory memory, Addr root, Word key, Path& path)
{
    path.set(0, root);
    Addr node = follow(memory, root);
    unsigned depth = 0;
    while (node != 0) {
        const Word found = memory.read(node + KEY);
        if (found == key)
            break;
        const Addr link = node + (key < found ? LEFT : RIGHT);
        depth = push_link(memory, path, depth, link);
        node = follow(memory, link);
    }
    return {depth, node};
}

template <class Memory>
bool is_red(Memory memory, Addr node)
{
    return node != 0 && memory.read(node + COLOUR) == RED;
}

// The child on this side comes up to where `link` leads; the node goes down to its other side.
template <class Memory>
void rotate(Memory memory, Addr link, Addr node, Addr child, Addr side)
{
    memory.write(node + side, memory.read(child + opposite(side)));
    memory.write(child + opposite(side), node);
    memory.write(link, child);
}

template <class Memory>
void paint(Memory memory, Addr node, Word colour)
{
    memory.write(node + COLOUR, colour);
}

// The red node at the end of the path, whose parent is red and whose uncle is not, comes to rest
// by one or two rotations.
template <class Memory>
void rotate_grandparent(Memory memory, const Path& path, unsigned depth, Addr node)
{
    const Addr parent = path.parent(depth), grandparent = path.parent(depth - 1);
    const Addr side = path.side(depth), upper = path.side(depth - 1);
    Addr top = parent;
    if (side != upper) {
        rotate(memory, path.link(depth - 1), parent, node, side);
        top = node;
    }
    rotate(memory, path.link(depth - 2), grandparent, top, upper);
    paint(memory, top, BLACK);
    paint(memory, grandparent, RED);
}

// The node at the end of the path is red, and its parent may be red, too.
template <class Memory>
void repair_red(Memory memory, const Path& path, unsigned depth, Addr node)
{
    while (depth >= 2) {
        const Addr parent = path.parent(depth), grandparent = path.parent(depth - 1);
        if (!is_red(memory, parent))
            return;
        const Addr uncle = follow(memory, grandparent + opposite(path.side(depth - 1)));
        if (!is_red(memory, uncle))
            return rotate_grandparent(memory, path, depth, node);
        paint(memory, parent, BLACK);
        paint(memory, uncle, BLACK);
        paint(memory, grandparent, RED);
        node = grandparent;
        depth -= 2;
    }
    if (depth == 0)
        paint(memory, node, BLACK);
}

// Hangs a block into the table under its key, which no entry has. The block's own words stay.
template <class Memory>
void insert(Memory memory, Addr root, Word key, Addr node)
{
    Path path;
    const WayDown end = descend(memory, root, key, path);
    memory.write(node + LEFT, 0);
    memory.write(node + RIGHT, 0);
    paint(memory, node, RED);
    memory.write(path.link(end.depth), node);
    repair_red(memory, path, end.depth, node);
}

// The child of a node on this side lacks a black node, and its sibling is black. Answers whether
// all is well now; if not, the tree of the node itself lacks one.
template <class Memory>
bool repair_at_black_sibling(Memory memory, Addr link, Addr node, Addr sibling, Addr side)
{
    const Addr outer = follow(memory, sibling + opposite(side));
    if (is_red(memory, outer)) {
        const Word colour = memory.read(node + COLOUR);
        rotate(memory, link, node, sibling, opposite(side));
        paint(memory, sibling, colour);
        paint(memory, node, BLACK);
        paint(memory, outer, BLACK);
        return true;
    }
    const Addr inner = follow(memory, sibling + side);
    if (is_red(memory, inner)) {
        const Word colour = memory.read(node + COLOUR);
        rotate(memory, node + opposite(side), sibling, inner, side);
        rotate(memory, link, node, inner, opposite(side));
        paint(memory, inner, colour);
        paint(memory, node, BLACK);
        return true;
    }
    const bool node_red = is_red(memory, node);
    paint(memory, sibling, RED);
    if (node_red)
        paint(memory, node, BLACK);
    return node_red;
}

template <class Memory>
bool repair_black_at(Memory memory, const Path& path, unsigned depth)
{
    const Addr parent = path.parent(depth), side = path.side(depth), link = path.link(depth - 1);
    const Addr sibling = follow(memory, parent + opposite(side));
    if (!is_red(memory, sibling))
        return repair_at_black_sibling(memory, link, parent, sibling, side);
    rotate(memory, link, parent, sibling, opposite(side));
    paint(memory, sibling, BLACK);
    paint(memory, parent, RED);
    const Addr inner = follow(memory, parent + opposite(side));
    return repair_at_black_sibling(memory, sibling + side, parent, inner, side);
}

// The tree at the end of the path, with this node as its root, lacks a black node.
template <class Memory>
void add_black(Memory memory, const Path& path, unsigned depth, Addr node)
{
    if (is_red(memory, node))
        return paint(memory, node, BLACK);
    while (depth != 0 && !repair_black_at(memory, path, depth))
        --depth;
}

// The only child of a node, or none, takes its place.
template <class Memory>
void unlink(Memory memory, const Path& path, WayDown end, Addr child)
{
    const bool node_red = is_red(memory, end.node);
    memory.write(path.link(end.depth), child);
    if (!node_red)
        add_black(memory, path, end.depth, child);
}

// The least node of the right side, by a way down that goes on from this depth.
template <class Memory>
WayDown descend_to_least(Memory memory, Path& path, unsigned depth, Addr node)
{
    for (Addr left; (left = follow(memory, node + LEFT)) != 0; node = left)
        depth = push_link(memory, path, depth, node + LEFT);
    return {depth, node};
}

// The least node of the right side takes the place of a node with two children.
template <class Memory>
void unlink_with_successor(Memory memory, Path& path, WayDown end, Addr left, Addr right)
{
    const unsigned below = push_link(memory, path, end.depth, end.node + RIGHT);
    const WayDown last = descend_to_least(memory, path, below, right);
    const Addr child = follow(memory, last.node + RIGHT);
    const bool successor_red = is_red(memory, last.node);
    memory.write(path.link(last.depth), child);
    memory.write(last.node + LEFT, left);
    // (read again: where the successor is the right child itself, its old place was this very
    // word)
    memory.write(last.node + RIGHT, memory.read(end.node + RIGHT));
    paint(memory, last.node, memory.read(end.node + COLOUR));
    memory.write(path.link(end.depth), last.node);
    path.set(below, last.node + RIGHT);
    if (!successor_red)
        add_black(memory, path, last.depth, child);
}

// Takes the entry of a key out of the table, and answers its block, or 0.
template <class Memory>
Addr remove(Memory memory, Addr root, Word key)
{
    Path path;
    const WayDown end = descend(memory, root, key, path);
    if (end.node == 0)
        return 0;
    const Addr left = follow(memory, end.node + LEFT), right = follow(memory, end.node + RIGHT);
    if (left == 0)
        unlink(memory, path, end, right);
    else if (right == 0)
        unlink(memory, path, end, left);
    else
        unlink_with_successor(memory, path, end, left, right);
    return end.node;
}

} // namespace vacation
