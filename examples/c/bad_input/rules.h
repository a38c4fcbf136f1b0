/*
 * What is due, worked out from the words and the bytes by the rules, and not by the library: it makes no call. rules.c reads pools,
 * commands.c the bytes of a batch.
 */
#ifndef RULES_H
#define RULES_H

#include "bag.h"

/* What a list of words holds: the number that refuses it, or 0 and its list and free nodes. */
struct held {
    uint64_t number;
    uint64_t n;
    uint64_t free;
    uint64_t elements[31 * BAG_MOST_NODES];
};

/* Word `word` of node k. */
size_t at(uint64_t k, size_t word);

void read_pool(const uint64_t *w, size_t length, struct held *h);

/* The number that is due to an insertion, and to a call that takes an index of the list: 2 before 3. */
uint64_t insertion_due(const uint64_t *w, const struct held *h, uint64_t index);
uint64_t element_due(const struct held *h, uint64_t index);

/* Where an element of the list stands, how many of its leaf follow from there, and the comparisons on the way. */
bag_part find(const uint64_t *w, uint64_t index, uint64_t *compared);

enum kind { INSERT = 1, REMOVE, PUSH, GET, REPLACE, LENGTH };

/* A push is an insertion at the end, so that each command but the length has its index. */
struct command {
    uint8_t kind;
    uint64_t index;
    uint64_t element;
    size_t bytes;
};

/* What stop_due gives where a command runs. */
#define RUNS 99

/* Why a batch ends with these bytes of input and so many of output left, if it does. */
uint64_t stop_due(const uint8_t *input, size_t input_left, size_t output_left);

/* The command that runs, on a list of n elements. */
struct command read_command(const uint8_t *input, uint64_t n);

/* Writes the bytes of a command; returns how many. */
size_t write_command(uint8_t *bytes, uint8_t kind, uint64_t index, uint64_t element);

/* The number that is due to a command, and the record that answers it; returns its bytes. */
uint64_t command_due(const uint64_t *w, const struct held *h, const struct command *c);
size_t record_due(const uint64_t *w, const struct held *h, const struct command *c, uint8_t *record);

/* What an accepted command makes of the list. */
void edit(struct held *h, const struct command *c);

#endif
