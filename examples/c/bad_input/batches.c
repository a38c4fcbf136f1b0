/*
 * Batches on the pool on trial. A batch must answer and leave what its commands do one at a time: they are run on a twin of the pool,
 * each record comes from the rules, and the twin must hold the list that the rules tell.
 */
#include <string.h>

#include "trial.h"

#define GUARD 8
#define GUARD_BYTE 0x5A

/* Bytes need no alignment, and these have none. */
static uint8_t input_room[1 + INPUT];
static uint8_t *const input = input_room + 1;
static uint8_t input_kept[INPUT];
static uint8_t output[GUARD + 1 + OUTPUT + GUARD];
static uint8_t *const answers = output + GUARD + 1;
static uint8_t output_due[sizeof output];
static uint64_t twin[MOST_WORDS];
static struct held list;

static uint64_t call_on_twin(const struct command *c)
{
    calls += c->kind != GET && c->kind != LENGTH;
    switch (c->kind) {
    case INSERT: return bag_insert(twin, words, c->index, c->element).number;
    case REMOVE: return bag_remove(twin, words, c->index).number;
    case PUSH: return bag_push(twin, words, c->element).number;
    case REPLACE: return bag_replace(twin, words, c->index, c->element).number;
    default: return command_due(twin, &list, c);
    }
}

/* Runs one command on the twin, and edits the list by the rules. A twin that went wrong is looked at no more. */
static void run_one(const struct command *c)
{
    uint64_t number = command_due(twin, &list, c);
    EXPECT(call_on_twin(c) == number);
    if (number == 0)
        edit(&list, c);
    read_pool(twin, words, &after);
    int as_told = after.number == 0 && after.n == list.n && memcmp(after.elements, list.elements, list.n * sizeof *twin) == 0;
    EXPECT(as_told);
    list.free = after.free;
    list.number = as_told ? BAG_DONE : BAG_UNSOUND;
}

/* What is due to a batch; its records go to `record`. */
static bag_ran run_singly(size_t input_bytes, uint8_t *record, size_t output_bytes)
{
    bag_ran due = {before.number, 0, 0, 0};
    memcpy(twin, kept, words * sizeof *twin);
    if (before.number != 0)
        return due;
    list.number = 0;
    list.n = before.n;
    list.free = before.free;
    memcpy(list.elements, before.elements, before.n * sizeof *twin);
    due.number = stop_due(input, input_bytes, output_bytes);
    while (due.number == RUNS) {
        struct command c = read_command(input + due.read, list.n);
        due.written += record_due(twin, &list, &c, record + due.written);
        run_one(&c);
        due.read += c.bytes;
        due.commands++;
        due.number = stop_due(input + due.read, input_bytes - due.read, output_bytes - due.written);
    }
    return due;
}

static int ran_so(bag_ran ran, uint64_t number, uint64_t commands, uint64_t read, uint64_t written)
{
    return ran.number == number && ran.commands == commands && ran.read == read && ran.written == written;
}

/* Whether the batch left the twin's words; then the old ones are put back. */
static int left_as_twin(void)
{
    calls++;
    int right = guarded() && memcmp(pool, twin, words * sizeof *pool) == 0;
    restore();
    return right;
}

/* A batch of the input's first bytes into so many bytes of output. No other byte may change. */
static bag_ran try_batch(size_t input_bytes, size_t output_bytes)
{
    memset(output, GUARD_BYTE, sizeof output);
    memset(output_due, GUARD_BYTE, sizeof output);
    memcpy(input_kept, input, INPUT);
    bag_ran due = run_singly(input_bytes, output_due + GUARD + 1, output_bytes);
    bag_ran ran = bag_batch(pool, words, input, input_bytes, answers, output_bytes);
    EXPECT(ran_so(ran, due.number, due.commands, due.read, due.written));
    EXPECT(memcmp(output, output_due, sizeof output) == 0);
    EXPECT(memcmp(input, input_kept, INPUT) == 0);
    EXPECT(left_as_twin());
    return ran;
}

size_t write_each_kind(uint8_t *bytes, uint64_t n)
{
    uint8_t *end = bytes;
    end += write_command(end, INSERT, n / 2, 77);
    end += write_command(end, GET, n / 2, 0);
    end += write_command(end, REPLACE, n / 3, UINT64_MAX);
    end += write_command(end, PUSH, 0, (uint64_t)1 << 63);
    end += write_command(end, LENGTH, 0, 0);
    end += write_command(end, REMOVE, 0, 0);
    end += write_command(end, GET, n + 1, 0);
    end += write_command(end, INSERT, UINT32_MAX, 78);
    end += write_command(end, REPLACE, n + 2, 79);
    end += write_command(end, REMOVE, n / 2, 0);
    return (size_t)(end - bytes);
}

static void write_any_bytes(void)
{
    for (size_t i = 0; i < INPUT; i++)
        input[i] = (uint8_t)any();
}

/* Commands at random, most of them in the list; then bytes at random. */
static void write_any_commands(uint64_t n)
{
    write_any_bytes();
    for (size_t i = 0; i + 13 <= INPUT && any() % 16 != 0;) {
        uint8_t kind = (uint8_t)(1 + any() % LENGTH);
        uint64_t index = any() % (n + 2);
        i += write_command(input + i, kind, index, any());
    }
}

void try_batches(void)
{
    size_t all = write_each_kind(input, before.n);
    try_batch(0, 0);
    try_batch(all, OUTPUT);
    try_batch(any() % all, OUTPUT);
    try_batch(all, any() % all);
    write_any_commands(before.n);
    try_batch(INPUT, OUTPUT);
    write_any_bytes();
    size_t some = any() % INPUT;
    try_batch(some, any() % OUTPUT);
}

/* Every length and every kind. The bytes after a cut go on, so that one who reads past it is found out. */
static void try_lengths_and_kinds(const char *what)
{
    put_on_trial(what);
    size_t all = write_each_kind(input, before.n);
    for (size_t bytes = 0; bytes <= all; bytes++) {
        try_batch(bytes, OUTPUT);
        try_batch(all, bytes);
    }
    for (unsigned kind = 0; kind < 256; kind++) {
        input[all] = (uint8_t)kind;
        try_batch(all + 1, OUTPUT);
    }
    for (unsigned kind = 0; kind < 256; kind++) {
        input[0] = (uint8_t)kind;
        try_batch(all, OUTPUT);
        try_batch(13, 12);
        try_batch(1, 0);
    }
}

/* The example of the rules, byte by byte. */
static void try_example(void)
{
    static const uint8_t in[19] = {3, 7, 0, 0, 0, 0, 0, 0, 0, 4, 0, 0, 0, 0, 2, 1, 0, 0, 0};
    static const uint8_t out[16] = {0x81, 0x85, 7, 0, 0, 0, 0, 0, 0, 0, 0, 0, 0, 0, 0x84, 2};
    fill(3, 0);
    put_on_trial("the example of a batch");
    memcpy(input, in, sizeof in);
    EXPECT(ran_so(try_batch(sizeof in, 27), BAG_DONE, 3, 19, 16));
    EXPECT(memcmp(answers, out, sizeof out) == 0);
    EXPECT(ran_so(try_batch(sizeof in, 26), BAG_FULL, 2, 14, 14));
    EXPECT(memcmp(answers, out, 14) == 0);
}

void try_bytes(void)
{
    try_example();
    fill(0, 0);
    try_lengths_and_kinds("no node");
    fill(1, 31);
    try_lengths_and_kinds("a full leaf");
    fill(3, 32);
    try_lengths_and_kinds("a root and two leaves");
    fill(3, 47);
    try_lengths_and_kinds("no room at the end");
    pool[at(1, 65)] = 3;
    try_lengths_and_kinds("a link in a tree node");
    words--;
    try_lengths_and_kinds("a word too few");
}
