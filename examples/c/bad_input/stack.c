/* The stack: no call takes more than bag.h says, on a large pool or a damaged one. Each is made on a thread with little stack. */
#define _POSIX_C_SOURCE 200112L
#include <limits.h>
#include <pthread.h>

#include "trial.h"

#define SMALL_STACK 65536
#define CALL_STACK 2048
#define PAINTED 16384
#define SPARED 256
#define PAINT 0xA5
#define CALLS 13

static volatile uintptr_t top;
static uint8_t input[INPUT];
static size_t input_bytes;
static uint8_t output[OUTPUT];
size_t most_stack;

/* One room for every answer, so that this function takes little stack itself. */
static uint64_t call_one(int call, uint64_t index)
{
    union { bag_answer answer; bag_walked walked; bag_ran ran; } got;
    switch (call) {
    case 0: got.answer = bag_check(pool, words); break;
    case 1: got.answer = bag_len(pool, words); break;
    case 2: got.answer = bag_insert(pool, words, index, 77); break;
    case 3: got.answer = bag_push(pool, words, 77); break;
    case 4: got.answer = bag_get(pool, words, index); break;
    case 5: got.answer = bag_replace(pool, words, index, 77); break;
    case 6: got.answer = bag_remove(pool, words, index); break;
    case 7: got.walked = bag_step(pool, words, index); break;
    case 8: got.walked = bag_skip(pool, words, index, 1); break;
    case 9: got.answer = bag_equal(pool, words, pool, words); break;
    case 10: return bag_window(pool, words, index).count == 0 ? BAG_UNSOUND : BAG_DONE;
    case 11: got.ran = bag_batch(pool, words, input, input_bytes, output, sizeof output); break;
    default: got.answer = bag_format(pool, words);
    }
    return got.answer.number;
}

/* Paints the stack below `top`, but for the frames that are in use. */
static void paint(void)
{
    volatile unsigned char *low = (volatile unsigned char *)(top - PAINTED);
    for (size_t i = 0; i < PAINTED - SPARED; i++)
        low[i] = PAINT;
}

/* How much of it was written since. */
static size_t written(void)
{
    const volatile unsigned char *low = (const volatile unsigned char *)(top - PAINTED);
    size_t i = 0;
    while (i < PAINTED - SPARED && low[i] == PAINT)
        i++;
    return PAINTED - i;
}

static void *call_each(void *nothing)
{
    volatile unsigned char here = 0;
    top = (uintptr_t)&here;
    input_bytes = write_each_kind(input, before.n);
    for (int call = 0; call < CALLS; call++) {
        paint();
        uint64_t number = call_one(call, before.n / 2);
        size_t stack = written();
        most_stack = stack > most_stack ? stack : most_stack;
        calls++;
        EXPECT(stack <= CALL_STACK);
        EXPECT(number == (call == CALLS - 1 ? BAG_DONE : before.number) && guarded());
        restore();
    }
    return nothing;
}

/* Every call on the pool that was tried last. */
static void try_small_stack(void)
{
    pthread_attr_t attr;
    pthread_t thread;
    size_t least = PTHREAD_STACK_MIN;
    int failed = pthread_attr_init(&attr) || pthread_attr_setstacksize(&attr, least < SMALL_STACK ? SMALL_STACK : least);
    EXPECT(!failed && pthread_create(&thread, &attr, call_each, NULL) == 0 && pthread_join(thread, NULL) == 0);
    pthread_attr_destroy(&attr);
}

/* A tree with some inner levels of some nodes, from node *next on, all as full as can be; returns its root. */
static uint64_t plant(uint64_t nodes, int levels, uint64_t *next)
{
    uint64_t k = (*next)++, rest = nodes - 1, most = 0;
    uint64_t *node = pool + at(k, 0);
    for (int i = 0; i < levels; i++)
        most = 1 + 32 * most;
    uint64_t kids = levels == 0 ? 0 : (rest + most - 1) / most;
    node[0] = node[1] = levels == 0 ? 31 : kids - 1;
    node[65] = 0;
    for (uint64_t i = 0; i < node[0]; i++)
        node[2 + i] = any();
    for (uint64_t c = 0; c < kids; c++) {
        uint64_t share = rest / (kids - c);
        rest -= share;
        node[33 + c] = plant(share, levels - 1, next);
        node[1] += pool[at(node[33 + c], 1)];
    }
    return k;
}

void try_stack(void)
{
    uint64_t next = 1;
    fill(BAG_MOST_NODES, 0);
    pool[0] = plant(BAG_MOST_NODES - 5, 3, &next);
    pool[1] = next;
    try_pool("the largest pool, nearly full");
    EXPECT(before.number == BAG_DONE && before.free == 5);
    try_small_stack();
    fill(BAG_MOST_NODES, 0);
    pool[0] = 1;
    pool[1] = 0;
    for (uint64_t k = 1; k <= BAG_MOST_NODES; k++) {
        pool[at(k, 0)] = 15;
        pool[at(k, 33)] = k < BAG_MOST_NODES ? k + 1 : 0;
        pool[at(k, 65)] = 0;
    }
    try_unsound("a tree as deep as it has nodes");
    try_small_stack();
    pool[at(BAG_MOST_NODES, 33)] = 1;
    try_unsound("a child ring through every node");
    try_small_stack();
}
