/* Pools with words changed: each rule of a sound pool broken in turn, and every word of a small pool set to others. */
#include <string.h>

#include "trial.h"

#define NODES 60

/* A sound pool, to be damaged. */
static uint64_t base[BAG_WORDS(NODES)];

/* One word of the pool at `base` set to another. */
static void damage(const char *what, size_t word, uint64_t value)
{
    memcpy(pool, base, words * sizeof *pool);
    pool[word] = value;
    try_unsound(what);
}

static void flip_each_bit(const char *what, size_t word)
{
    for (int bit = 0; bit < 64; bit++)
        damage(what, word, base[word] ^ (uint64_t)1 << bit);
}

/* No id: 0 where one is due, the first after the last node, and one that is right in its low bits. */
static void misdirect(const char *what, size_t word)
{
    damage(what, word, 0);
    damage(what, word, NODES + 1);
    damage(what, word, base[word] | (uint64_t)1 << 32);
    damage(what, word, base[word] | (uint64_t)1 << 63);
    damage(what, word, UINT64_MAX);
}

/* `tree` has the root, an inner node below it and a leaf below that; `free` is the first free node. */
static void damage_nodes(const uint64_t *tree, uint64_t free)
{
    for (int i = 0; i < 3; i++) {
        uint64_t k = tree[i], n = base[at(k, 0)], kids = i == 2 ? 0 : n + 1;
        flip_each_bit("a flipped count", at(k, 0));
        flip_each_bit("a wrong subtree length", at(k, 1));
        flip_each_bit("a link in a tree node", at(k, 65));
        for (size_t slot = 2 + n; slot < 33; slot++)
            damage("an unused element", at(k, slot), slot);
        for (size_t slot = 33 + kids; slot < 65; slot++)
            damage("an unused child", at(k, slot), free);
    }
    for (size_t word = 0; word < 65; word++)
        damage("a free node that is not zeros", at(free, word), 1);
}

static void damage_tree(const uint64_t *tree, uint64_t free)
{
    misdirect("a root that is no node", 0);
    for (int i = 0; i < 2; i++)
        for (size_t c = 0; c <= base[at(tree[i], 0)]; c++)
            misdirect("a child that is no node", at(tree[i], 33 + c));
    for (int i = 0; i < 3; i++) {
        damage("a child ring", at(tree[1], 33), tree[i == 2 ? 1 : i]);
        damage("a child ring from a leaf", at(tree[2], 33), tree[i]);
        damage("a root below the root", 0, i == 0 ? free : tree[i]);
    }
    damage("a child met twice", at(tree[1], 34), base[at(tree[1], 33)]);
    damage("a leaf one level up", at(tree[0], 33), tree[2]);
    damage("a node both free and used", at(tree[1], 33), free);
}

static void damage_chain(const uint64_t *tree, uint64_t free)
{
    uint64_t last = free, second = base[at(free, 65)];
    while (base[at(last, 65)] != 0)
        last = base[at(last, 65)];
    misdirect("a chain that is no node", 1);
    misdirect("a link that is no node", at(free, 65));
    damage("a chain ring", at(last, 65), free);
    damage("a chain ring of one", at(last, 65), last);
    for (int i = 0; i < 3; i++) {
        damage("a chain into the tree", at(last, 65), tree[i]);
        damage("a chain that starts in the tree", 1, tree[i]);
    }
    damage("a lost node", 1, second);
    damage("a lost node", at(free, 65), base[at(second, 65)]);
}

static void damage_many_words(void)
{
    fill(3, 32);
    pool[at(1, 0)] = pool[at(1, 1)] = 14;
    pool[at(1, 2 + 14)] = 0;
    pool[at(2, 1)] = 31;
    try_unsound("a leaf with 14 elements, all else in order");
    fill(3, 32);
    pool[0] = 0;
    pool[1] = 1;
    memset(pool + 2, 0, 66 * sizeof *pool);
    try_unsound("a tree that nothing leads to");
}

void try_damage(void)
{
    fill(NODES, 600);
    try_pool("a tree of three levels");
    for (uint64_t index = 0; index <= 600; index++)
        try_lookups(index);
    memcpy(base, pool, words * sizeof *pool);
    uint64_t inner = base[at(base[0], 33)];
    const uint64_t tree[3] = {base[0], inner, base[at(inner, 33)]};
    damage_nodes(tree, base[1]);
    damage_tree(tree, base[1]);
    damage_chain(tree, base[1]);
    damage_many_words();
}

/* Some of these pools are sound: what is due is what `read_pool` says. */
void try_each_word(void)
{
    fill(4, 32);
    memcpy(base, pool, words * sizeof *pool);
    for (size_t word = 0; word < words; word++) {
        const uint64_t value[] = {0, base[word] + 1, base[word] - 1, 4, UINT64_MAX};
        for (int i = 0; i < 5; i++) {
            memcpy(pool, base, words * sizeof *pool);
            pool[word] = value[i];
            try_pool("one word changed");
        }
    }
}
