/* The pool on trial: see trial.h. */
#include <stdio.h>
#include <string.h>

#include "trial.h"

#define GUARD 8
#define GUARD_WORD 0x5A5A5A5A5A5A5A5AU

static uint64_t room[GUARD + MOST_WORDS + GUARD];
uint64_t *const pool = room + GUARD;
size_t words;
const char *trial;
uint64_t kept[MOST_WORDS];
struct held before;
struct held after;
unsigned long calls;
unsigned long failures;

void expect(int holds, const char *what, const char *file, int line)
{
    if (holds)
        return;
    failures++;
    fprintf(stderr, "%s:%d: %s, %zu words: not so: %s\n", file, line, trial, words, what);
}

int same(bag_answer a, uint64_t number, uint64_t value, uint64_t compared)
{
    return a.number == number && a.value == value && a.compared == compared;
}

uint64_t any(void)
{
    static uint64_t seed = 20261115;
    seed ^= seed << 13;
    seed ^= seed >> 7;
    seed ^= seed << 17;
    return seed;
}

void fill(uint64_t nodes, uint64_t pushes)
{
    trial = "a pool that is filled";
    words = BAG_WORDS(nodes);
    calls += 1 + pushes;
    EXPECT(bag_format(pool, words).number == BAG_DONE);
    for (uint64_t x = 1; x <= pushes; x++)
        EXPECT(bag_push(pool, words, x).number == BAG_DONE);
}

void put_on_trial(const char *what)
{
    trial = what;
    memcpy(kept, pool, words * sizeof *pool);
    restore();
    read_pool(pool, words, &before);
}

void restore(void)
{
    memcpy(pool, kept, words * sizeof *pool);
    for (int i = 0; i < GUARD; i++)
        room[i] = pool[words + i] = GUARD_WORD;
}

int guarded(void)
{
    for (int i = 0; i < GUARD; i++)
        if (room[i] != GUARD_WORD || pool[words + i] != GUARD_WORD)
            return 0;
    return 1;
}

int unchanged(void)
{
    calls++;
    int right = guarded() && memcmp(pool, kept, words * sizeof *pool) == 0;
    if (!right)
        restore();
    return right;
}

int leaves(const uint64_t *head, uint64_t head_n, const uint64_t *x, const uint64_t *tail, uint64_t tail_n)
{
    uint64_t extra = x != NULL;
    calls++;
    read_pool(pool, words, &after);
    int right = guarded() && after.number == BAG_DONE && after.n == head_n + extra + tail_n;
    right = right && memcmp(after.elements, head, head_n * sizeof *head) == 0 && (!extra || after.elements[head_n] == *x);
    right = right && memcmp(after.elements + head_n + extra, tail, tail_n * sizeof *tail) == 0;
    restore();
    return right;
}
