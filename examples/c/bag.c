/* A scanner's bag, from C: rust/bag.rs tells the same story, and both print story.txt. */
#include <inttypes.h>
#include <stdio.h>

#include "bag.h"

#define NODES 3
#define WORDS BAG_WORDS(NODES)

static uint64_t pool[WORDS];

/* Tubes 1001, 1002, .. are scanned one after the other. */
static void scan(uint64_t tubes)
{
    uint64_t number = BAG_DONE;
    for (uint64_t tube = 1001; tube <= 1000 + tubes && number == BAG_DONE; tube++)
        number = bag_push(pool, WORDS, tube).number;
    printf("scanned %" PRIu64 " tubes: %" PRIu64 "\n", bag_len(pool, WORDS).value, number);
}

static void look_up(uint64_t index)
{
    bag_answer a = bag_get(pool, WORDS, index);
    printf("tube at %" PRIu64 ": %" PRIu64 ", %" PRIu64 ", %" PRIu64 " compared\n", index, a.number, a.value, a.compared);
}

/* A walk over the bag ends with the answer 2, at the place after the last tube. */
static void walk(void)
{
    bag_walked at = bag_step(pool, WORDS, 0);
    printf("in order:");
    for (; at.number == BAG_DONE; at = bag_step(pool, WORDS, at.position))
        printf(" %" PRIu64, at.element);
    printf("; %" PRIu64 " at %" PRIu64 "\n", at.number, at.position);
}

/* The tubes from an index on that lie side by side in the pool, read there. */
static void look_through(uint64_t index)
{
    bag_part part = bag_window(pool, WORDS, index);
    printf("window at %" PRIu64 ": words %" PRIu64 " + %" PRIu64 ":", index, part.start, part.count);
    for (uint64_t i = 0; i < part.count; i++)
        printf(" %" PRIu64, pool[part.start + i]);
    printf("\n");
}

/* Every refusal has a number, and changes no word. */
static void be_refused(void)
{
    uint64_t number = BAG_DONE;
    printf("remove at 99: %" PRIu64 "\n", bag_remove(pool, WORDS, 99).number);
    while (number == BAG_DONE)
        number = bag_push(pool, WORDS, 7).number;
    printf("push until the bag is full: %" PRIu64 "\n", number);
    printf("a word too few: %" PRIu64 "\n", bag_len(pool, WORDS - 1).number);
    pool[0] = NODES + 1;
    printf("a damaged pool: %" PRIu64 "\n", bag_len(pool, WORDS).number);
}

/*
 * Commands in bytes, run by one call on an empty bag: scan tube 7, look it up at 0, take out the tube at 1, which is refused. The answers
 * have room for up to 27 bytes, and a command runs only if 13 are left.
 */
static void run_commands(size_t room)
{
    static const uint8_t commands[] = {
        3, 7, 0, 0, 0, 0, 0, 0, 0, /* push 7 */
        4, 0, 0, 0, 0,             /* get 0 */
        2, 1, 0, 0, 0,             /* remove 1 */
    };
    uint8_t answers[27];
    printf("formatted: %" PRIu64 "\n", bag_format(pool, WORDS).number);
    bag_ran ran = bag_batch(pool, WORDS, commands, sizeof commands, answers, room);
    printf("batch into %" PRIu64 " bytes: %" PRIu64 " after %" PRIu64 " commands, ", (uint64_t)room, ran.number, ran.commands);
    printf("%" PRIu64 " bytes read, %" PRIu64 " written:", ran.read, ran.written);
    for (uint64_t i = 0; i < ran.written; i++)
        printf(" %02x", (unsigned)answers[i]);
    printf("\n");
}

int main(void)
{
    bag_answer a = bag_format(pool, WORDS);
    printf("formatted: %" PRIu64 "\n", a.number);
    scan(32);
    a = bag_insert(pool, WORDS, 15, 2000);
    printf("slot 2000 in at 15: %" PRIu64 "\n", a.number);
    look_up(15);
    look_up(32);
    a = bag_replace(pool, WORDS, 15, 2001);
    printf("relabel the tube at 15: %" PRIu64 ", it was %" PRIu64 "\n", a.number, a.value);
    a = bag_remove(pool, WORDS, 0);
    printf("take the first tube out: %" PRIu64 ", it was %" PRIu64 "\n", a.number, a.value);
    walk();
    look_through(20);
    be_refused();
    run_commands(27);
    run_commands(26);
    return 0;
}
