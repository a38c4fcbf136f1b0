/*
 * Every call on bad input, through bag.h. Here is the plan of the trials; their parts are in bad_input/:
 *   rules.c, commands.c   what is due, from the rules of pools and of batches, and not by the library
 *   trial.c               the pool on trial, and whether a call left what is due
 *   calls.c, batches.c    every call on that pool, and batches of commands
 *   damage.c              pools with words changed
 *   stack.c               the stack that a call takes
 */
#include <stdio.h>
#include <string.h>

#include "bad_input/trial.h"

/* ---- lengths */

static void try_length(size_t length)
{
    words = length;
    memset(pool, 0, words * sizeof *pool);
    try_pool("zeros");
    for (size_t i = 0; i < words; i++)
        pool[i] = any();
    try_pool("random words");
    trial = "a formatted pool";
    bag_answer a = bag_format(pool, words);
    calls++;
    read_pool(pool, words, &before);
    EXPECT(a.number == before.number && before.number != BAG_UNSOUND && before.n == 0);
    for (uint64_t k = 1; before.number == 0 && k <= before.free; k++)
        EXPECT(pool[k == 1 ? 1 : at(k - 1, 65)] == k);
    try_pool("a formatted pool");
}

static void try_lengths(void)
{
    const uint64_t nodes[] = {0, 1, 2, 3, 60, 4095, 4096, 4097, 4999};
    try_length(0);
    for (size_t i = 0; i < sizeof nodes / sizeof *nodes; i++)
        for (size_t length = BAG_WORDS(nodes[i]) - 1; length <= BAG_WORDS(nodes[i]) + 1; length++)
            try_length(length);
    for (uint64_t p = 0; p <= 3; p++) {
        fill(p, p == 3 ? 32 : 15 * p);
        try_pool("a sound pool");
    }
    fill(1, 31);
    try_pool("a full leaf");
    fill(3, 47);
    try_pool("no room at the end");
    fill(BAG_MOST_NODES, 700);
    try_pool("the largest pool");
}

/* ---- words at random: what is due is what `read_pool` says */

static void try_random(void)
{
    for (int round = 0; round < 3000; round++) {
        uint64_t nodes = any() % 4, below = 1 + any() % 40;
        words = BAG_WORDS(nodes);
        for (size_t i = 0; i < words; i++)
            pool[i] = any() % below;
        try_pool("small random words");
        fill(3, any() % 40);
        for (uint64_t i = any() % 3; i < 3; i++) {
            size_t word = any() % words;
            pool[word] = any() % below;
        }
        try_pool("some words changed");
    }
}

/* ---- equality: the first pool is tried, then the second */

#define POOLS 9

static uint64_t pools[POOLS][BAG_WORDS(4)];

/* No word, a misfit and zeros; an empty list in two pools; one list in two shapes, with one element changed, and with one more. */
static const size_t lengths[POOLS] = {
    0, 67, BAG_WORDS(1), BAG_WORDS(0), BAG_WORDS(4), BAG_WORDS(3), BAG_WORDS(4), BAG_WORDS(4), BAG_WORDS(4)};

static void make_pools(void)
{
    calls += POOLS - 3 + 4 * 40 + 1;
    for (int i = 3; i < POOLS; i++)
        EXPECT(bag_format(pools[i], lengths[i]).number == BAG_DONE);
    for (uint64_t x = 1; x <= 40; x++) {
        EXPECT(bag_push(pools[5], lengths[5], x).number == BAG_DONE);
        EXPECT(bag_insert(pools[6], lengths[6], 0, 41 - x).number == BAG_DONE);
        EXPECT(bag_push(pools[7], lengths[7], x == 20 ? 0 : x).number == BAG_DONE);
        EXPECT(bag_push(pools[8], lengths[8], x).number == BAG_DONE);
    }
    EXPECT(bag_push(pools[8], lengths[8], 41).number == BAG_DONE);
}

static void try_equal(void)
{
    trial = "equality";
    make_pools();
    for (int i = 0; i < POOLS; i++)
        for (int j = 0; j < POOLS; j++) {
            read_pool(pools[i], lengths[i], &before);
            read_pool(pools[j], lengths[j], &after);
            uint64_t number = before.number ? before.number : after.number;
            int equal = before.n == after.n && memcmp(before.elements, after.elements, before.n * sizeof *pool) == 0;
            calls++;
            EXPECT(same(bag_equal(pools[i], lengths[i], pools[j], lengths[j]), number, number == 0 && equal, 0));
        }
}

int main(void)
{
    try_lengths();
    try_bytes();
    try_damage();
    try_stack();
    try_each_word();
    try_random();
    try_equal();
    printf("%lu calls tried, %lu expectations failed; at most %zu bytes of stack to a call\n", calls, failures, most_stack);
    return failures != 0;
}
