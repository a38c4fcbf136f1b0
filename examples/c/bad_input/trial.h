/* The pool on trial, with words around it that nobody may write, and what the trials expect of it. Each trial leaves it as it was. */
#ifndef TRIAL_H
#define TRIAL_H

#include "rules.h"

#define MOST_WORDS BAG_WORDS(5000)

extern uint64_t *const pool;
extern size_t words;

/* What is on trial, for the message of an expectation that fails. */
extern const char *trial;

/* The pool's words before a call and what they held, and room to read what it holds after one. */
extern uint64_t kept[MOST_WORDS];
extern struct held before;
extern struct held after;

extern unsigned long calls;
extern unsigned long failures;

#define EXPECT(holds) expect((holds), #holds, __FILE__, __LINE__)

void expect(int holds, const char *what, const char *file, int line);

int same(bag_answer a, uint64_t number, uint64_t value, uint64_t compared);

/* A random word, all of its bits in use. */
uint64_t any(void);

/* Makes a pool of some nodes, after pushes of 1, 2, .. */
void fill(uint64_t nodes, uint64_t pushes);

/* Puts the pool on trial as it stands. */
void put_on_trial(const char *what);

/* Puts back the words that were put on trial. */
void restore(void);

/* Whether the words around the pool are as they were. */
int guarded(void);

/* After a call: whether no word has changed. What has is put back, so that the next call is not blamed. */
int unchanged(void);

/* After an edit: whether the pool is sound and holds this list, with x if it is not null. Then the old words are put back. */
int leaves(const uint64_t *head, uint64_t head_n, const uint64_t *x, const uint64_t *tail, uint64_t tail_n);

/* calls.c: every call on the pool, batches among them; on a pool that must be unsound; the lookups at one index. */
void try_pool(const char *what);
void try_unsound(const char *what);
void try_lookups(uint64_t index);

/* The bytes of a batch, and of what can answer it: a length is asked for by 1 byte and answered by 9. */
#define INPUT 128
#define OUTPUT (9 * INPUT + 13)

/* batches.c: batches on the pool on trial; input and output of every length, and every kind, on a few pools. */
void try_batches(void);
void try_bytes(void);

/* Writes commands of each kind, on a list of n elements, in it and beyond it; returns their bytes. */
size_t write_each_kind(uint8_t *bytes, uint64_t n);

/* damage.c: each rule of a sound pool broken; each word of a pool changed. */
void try_damage(void);
void try_each_word(void);

/* stack.c: the stack that a call takes, and the most that one took. */
void try_stack(void);
extern size_t most_stack;

#endif
