/* The paper's algorithms (document 001) as one writes them in C for speed: every word is read through one 64-bit window, the panel
   and the numbers are trusted, nothing is checked. The bytes have eight more behind the panel's last, for the window. */
#include <stddef.h>
#include <stdint.h>
#include <string.h>

static inline uint32_t depth(uint32_t node) { return 31 - (uint32_t)__builtin_clz(node); }

/* Where a word starts and how many bits it has (section 3.3). */
static inline size_t place(uint32_t deep, uint32_t node, uint32_t *bits) {
    uint32_t d = depth(node);
    *bits = deep - d + 1;
    return ((size_t)2 << d) + (size_t)node * *bits;
}

static inline uint64_t window(const uint8_t *at) {
    uint64_t x;
    memcpy(&x, at, sizeof x);
    return x;
}

static inline uint32_t word(const uint8_t *bytes, uint32_t deep, uint32_t node) {
    uint32_t bits;
    size_t start = place(deep, node, &bits);
    return (uint32_t)(window(bytes + start / 8) >> (start % 8) & (((uint64_t)1 << bits) - 1));
}

static inline void put_word(uint8_t *bytes, uint32_t deep, uint32_t node, uint32_t value) {
    uint32_t bits;
    size_t start = place(deep, node, &bits);
    uint64_t mask = (((uint64_t)1 << bits) - 1) << (start % 8);
    uint64_t x = (window(bytes + start / 8) & ~mask) | (uint64_t)value << (start % 8);
    memcpy(bytes + start / 8, &x, sizeof x);
}

/* The place of the leaf bit that a node has as a leaf, and of its pin: the pins come right behind the leaf bits, in the same order. */
static inline size_t leaf_bit(uint32_t deep, uint32_t node) {
    return ((size_t)2 << deep) + ((size_t)node << (deep - depth(node)));
}

static inline size_t pin_bit(uint32_t deep, uint32_t node) { return leaf_bit(deep, node) + ((size_t)1 << deep); }

static inline int is_set(const uint8_t *bytes, size_t bit) { return bytes[bit / 8] >> (bit % 8) & 1; }

static inline void set(uint8_t *bytes, size_t bit) { bytes[bit / 8] |= (uint8_t)(1u << (bit % 8)); }

static inline void clear(uint8_t *bytes, size_t bit) { bytes[bit / 8] &= (uint8_t)~(1u << (bit % 8)); }

/* Algorithm 1, with the left child's word both compared and subtracted. */
uint32_t c_leaf(const uint8_t *bytes, uint32_t deep, uint32_t number) {
    uint32_t node = 1;
    while (word(bytes, deep, node) > 1) {
        uint32_t left = word(bytes, deep, 2 * node);
        if (number < left) {
            node *= 2;
        } else {
            number -= left;
            node = 2 * node + 1;
        }
    }
    return node;
}

/* Algorithm 2. */
void c_sums(uint8_t *bytes, uint32_t deep) {
    for (uint32_t d = deep; d-- > 0;)
        for (uint32_t node = (uint32_t)1 << d; node < (uint32_t)2 << d; node++)
            put_word(bytes, deep, node, word(bytes, deep, 2 * node) + word(bytes, deep, 2 * node + 1));
}

struct around {
    uint32_t left, right, edge, node;
};

static inline uint32_t right_child(uint32_t node) { return 2 * node + (node != 0); }

static inline struct around around(uint32_t node) {
    uint32_t levels = depth(node) - 1, first = node >> levels;
    struct around n = {0, 0, 5 - first, first};
    while (levels-- > 0) {
        if ((node >> levels & 1) == 0)
            n = (struct around){2 * n.node + 1, right_child(n.edge), right_child(n.right), 2 * n.node};
        else
            n = (struct around){2 * n.edge, 2 * n.node, 2 * n.left, 2 * n.node + 1};
    }
    return n;
}

/* Algorithm 6, for a square. */
struct around c_neighbours(uint32_t node) { return around(node); }

struct triangle {
    uint32_t at[3][2];
};

/* Algorithm 5 with each matrix of formula 3 applied to the corners at once. They go out counterclockwise: at even depth the matrices give
 * them clockwise. */
struct triangle c_corners(uint32_t node) {
    uint32_t levels = depth(node) - 1, upper = (node >> levels & 1) * 256;
    uint32_t ax = upper, ay = 256 - upper, bx = upper, by = upper, cx = 256 - upper, cy = upper;
    while (levels-- > 0) {
        uint32_t mx = (ax + cx) / 2, my = (ay + cy) / 2;
        if ((node >> levels & 1) == 0) {
            cx = bx;
            cy = by;
        } else {
            ax = bx;
            ay = by;
        }
        bx = mx;
        by = my;
    }
    if (depth(node) % 2 == 0)
        return (struct triangle){{{cx, cy}, {bx, by}, {ax, ay}}};
    return (struct triangle){{{ax, ay}, {bx, by}, {cx, cy}}};
}

/* Sets the leaf bit of the right child, unless the node is cut already. A pin is copied to it; the left child has the node's own bits. */
static inline void split_node(uint8_t *bytes, uint32_t deep, uint32_t node) {
    uint32_t right = 2 * node + 1;
    if (is_set(bytes, leaf_bit(deep, right)))
        return;
    set(bytes, leaf_bit(deep, right));
    if (is_set(bytes, pin_bit(deep, node)))
        set(bytes, pin_bit(deep, right));
}

static inline void merge_node(uint8_t *bytes, uint32_t deep, uint32_t node) { clear(bytes, leaf_bit(deep, node | 1)); }

/* Algorithm 7, the cuts alone, the coarsest first: a node is a leaf when it is cut, so that its pin is in its place. */
static void cut(uint8_t *bytes, uint32_t deep, uint32_t node) {
    if (node <= 1)
        return;
    uint32_t across = around(node).edge;
    if (across != 0) {
        cut(bytes, deep, across / 2);
        split_node(bytes, deep, across);
    }
    split_node(bytes, deep, node);
}

/* Algorithm 7, then all sums. */
void c_split(uint8_t *bytes, uint32_t deep, uint32_t node) {
    cut(bytes, deep, node);
    c_sums(bytes, deep);
}

/* Whether a node is a leaf that is not pinned. */
static inline int goes(const uint8_t *bytes, uint32_t deep, uint32_t node) {
    return word(bytes, deep, node) == 1 && !is_set(bytes, pin_bit(deep, node));
}

/* Whether the leaf, its sibling and the pair across may go. At the border there is no pair across. */
static inline int may_merge(const uint8_t *bytes, uint32_t deep, uint32_t node, uint32_t across) {
    return !is_set(bytes, pin_bit(deep, node)) && goes(bytes, deep, node ^ 1) &&
           (across == 0 || (goes(bytes, deep, 2 * across) && goes(bytes, deep, 2 * across + 1)));
}

/* Algorithm 8, unless a leaf that would go is pinned, then all sums. */
void c_merge(uint8_t *bytes, uint32_t deep, uint32_t node) {
    uint32_t across = around(node / 2).edge;
    if (!may_merge(bytes, deep, node, across))
        return;
    merge_node(bytes, deep, node);
    if (across != 0)
        merge_node(bytes, deep, 2 * across + 1);
    c_sums(bytes, deep);
}

/* Sets or clears the leaf bit that is set where a node is cut, and adds the change to each word above it, up to node 1. A word has room for all
   leaves below it, so that nothing is carried out of it; with what is before it in its byte it has 25 bits at most. */
static inline void change_along(uint8_t *bytes, uint32_t deep, uint32_t node, uint32_t change) {
    size_t k = (2 * (size_t)node + 1) << (deep - depth(node) - 1), top = (size_t)2 << deep, bits = 1;
    for (; k > 0; k /= 2, top /= 2, bits++) {
        size_t start = top + k * bits;
        uint32_t x;
        memcpy(&x, bytes + start / 8, sizeof x);
        x += change << (start % 8);
        memcpy(bytes + start / 8, &x, sizeof x);
    }
}

/* Copies the pin of a leaf to the right child of a node in it. */
static inline void pass_pin(uint8_t *bytes, uint32_t deep, uint32_t leaf, uint32_t right) {
    if (is_set(bytes, pin_bit(deep, leaf)))
        set(bytes, pin_bit(deep, right));
}

/* Algorithm 7 up to the first node that is cut already, with the words above each leaf bit that is set. The right child of each node that is cut
   gets the pin of the leaf that the node is or lies right below. */
void c_split_along(uint8_t *bytes, uint32_t deep, uint32_t node) {
    for (;;) {
        pass_pin(bytes, deep, node, 2 * node + 1);
        change_along(bytes, deep, node, 1);
        uint32_t across = around(node).edge, up = across / 2;
        if (across == 0)
            return;
        int was_cut = is_set(bytes, leaf_bit(deep, 2 * up + 1));
        pass_pin(bytes, deep, was_cut ? across : up, 2 * across + 1);
        change_along(bytes, deep, across, 1);
        if (was_cut)
            return;
        node = up;
    }
}

/* Algorithm 8, unless a leaf that would go is pinned, with the words above each leaf bit that is cleared. */
void c_merge_along(uint8_t *bytes, uint32_t deep, uint32_t node) {
    uint32_t across = around(node / 2).edge;
    if (!may_merge(bytes, deep, node, across))
        return;
    change_along(bytes, deep, node / 2, (uint32_t)-1);
    if (across != 0)
        change_along(bytes, deep, across, (uint32_t)-1);
}

/* Algorithm 13, with the node's own last digit tested. */
uint32_t c_number(const uint8_t *bytes, uint32_t deep, uint32_t node) {
    uint32_t number = 0;
    for (; node > 1; node /= 2)
        if (node & 1)
            number += word(bytes, deep, node ^ 1);
    return number;
}
