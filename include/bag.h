/*
 * A list of 64-bit sample numbers, kept in a pool of words that the caller lends. Link crates/bag/out/libbag.a, for x86-64, which
 * needs nothing but the memory functions of the C library.
 *
 * A pool of p nodes has BAG_WORDS(p) words, p from 0 to BAG_MOST_NODES. Whatever its words are, bag_format makes it an empty list.
 * An insertion into a list of n samples always finds room while n < 15 p.
 *
 * Every call answers, for any words, any length and any index. All but bag_format check the whole pool first, so that their time grows
 * with it (docs/BENCH.md). A call that answers 1 to 4 has changed no word. A field that a call does not give is 0.
 *
 * The check sees the structure of a pool. A changed sample number is a legal one, and is not seen: keep a checksum beside a pool that
 * leaves RAM.
 *
 * The caller owes this much:
 * - a pointer is not null, and one to words is 8-aligned, also for a length of 0, and so much can be read (and written, if not const);
 * - what a call writes does not overlap what else it is lent;
 * - no other thread touches the pool during a call;
 * - stack: 2 KB, whatever the words are (measured: 1.4 KB, by examples/c/bad_input.c).
 * There is no other state, and nothing is kept between calls. The two pools of bag_equal may be the same.
 */
#ifndef BAG_H
#define BAG_H

#include <stddef.h>
#include <stdint.h>

#ifdef __cplusplus
extern "C" {
#endif

#define BAG_MOST_NODES 4096

/* The words of a pool of p nodes. */
#define BAG_WORDS(p) (2 + 66 * (size_t)(p))

/* What a call answers. If several apply, it is the first of 4, 1, 2, 3. */
enum bag_number {
    BAG_DONE = 0,
    BAG_UNSOUND = 1, /* the words are not a sound pool: never formatted, or damaged */
    BAG_BEYOND = 2,  /* the list has no such index */
    BAG_NO_ROOM = 3, /* the insertion needs more nodes than are free */
    BAG_MISFIT = 4,  /* the length is not BAG_WORDS(p) for a p up to BAG_MOST_NODES */
    /* a batch's stops besides 0, at the end of its input */
    BAG_UNKNOWN = 5, /* a byte that is no command's kind */
    BAG_CUT = 6,     /* the input ends inside a command */
    BAG_FULL = 7     /* fewer than BAG_LONGEST_ANSWER bytes of output are left */
};

/* The longest record that answers a command. */
#define BAG_LONGEST_ANSWER 13

typedef struct bag_answer {
    uint64_t number;
    uint64_t value;
    uint64_t compared;
} bag_answer;

typedef struct bag_walked {
    uint64_t number;
    uint64_t element;
    uint64_t position;
} bag_walked;

typedef struct bag_part {
    uint64_t start;
    uint64_t count;
} bag_part;

typedef struct bag_ran {
    uint64_t number;
    uint64_t commands;
    uint64_t read;
    uint64_t written;
} bag_ran;

/* Makes an empty list of any old words. 0, 4. */
bag_answer bag_format(uint64_t *pool, size_t words);

/* Whether the pool is sound: the number alone. 0, 4, 1. */
bag_answer bag_check(const uint64_t *pool, size_t words);

/* value: how many samples the list has, n. 0, 4, 1. */
bag_answer bag_len(const uint64_t *pool, size_t words);

/* Puts element at index 0 to n, before the one that was there. 0, 4, 1, 2, 3. */
bag_answer bag_insert(uint64_t *pool, size_t words, uint64_t index, uint64_t element);

/* Puts element at the end. 0, 4, 1, 3. */
bag_answer bag_push(uint64_t *pool, size_t words, uint64_t element);

/* value: the element at index 0 to n - 1; compared: how many child lengths were compared on the way to it. 0, 4, 1, 2. */
bag_answer bag_get(const uint64_t *pool, size_t words, uint64_t index);

/* Stores element at index 0 to n - 1. value: the element that was there. 0, 4, 1, 2. */
bag_answer bag_replace(uint64_t *pool, size_t words, uint64_t index, uint64_t element);

/* Takes out the element at index 0 to n - 1; those after it move down by one. value: that element. 0, 4, 1, 2. */
bag_answer bag_remove(uint64_t *pool, size_t words, uint64_t index);

/*
 * A walk starts at position 0. A step gives the element at a position, and the position after it. 0, 4, 1, 2.
 * At or past the end: 2, and position n. After 4 or 1: the position that was passed.
 */
bag_walked bag_step(const uint64_t *pool, size_t words, uint64_t position);

/* Leaves out m elements and then takes a step, as above; m of 0 is a step, and no m is too large. 0, 4, 1, 2. */
bag_walked bag_skip(const uint64_t *pool, size_t words, uint64_t position, uint64_t m);

/* value: 1 if both lists have the same elements in the same order, else 0. 0; 4, 1 of the first pool, then of the second. */
bag_answer bag_equal(const uint64_t *a, size_t a_words, const uint64_t *b, size_t b_words);

/*
 * Where the element at an index stands, with those after it in the same leaf: pool[start] to pool[start + count - 1]. An element of
 * an inner node stands by itself. 0 and 0 if refused, and only then; bag_check and bag_len tell why. Any edit may move elements.
 */
bag_part bag_window(const uint64_t *pool, size_t words, uint64_t index);

/*
 * Runs commands in bytes; the pool is checked once. A command is a byte of kind and a body, numbers little-endian:
 *   01 insert: index 4, element 8    02 remove: index 4    03 push: element 8
 *   04 get: index 4    05 replace: index 4, element 8    06 length
 * and is answered by a record:
 *   81 done    82 element 8 (remove, replace)    83 length 8    84 refused: number 1 (2 or 3)    85 got: element 8, compared 4
 * A refused command does not stop the batch. It stops with 0 at the end of the input, else with 5, 6 or 7, tried in that order at each
 * command; the commands before that one are done, and nothing of it. commands, read, written: the commands run, and their bytes.
 * Bytes of the output past those written are as they were. 4, 1: nothing was run, and no byte or word is changed.
 */
bag_ran bag_batch(uint64_t *pool, size_t words, const uint8_t *input, size_t input_bytes, uint8_t *output, size_t output_bytes);

#ifdef __cplusplus
}
#endif

#endif
