/* The rules of a batch: its commands in bytes, what stops it, the record that answers a command, and the edit that the command makes. */
#include <string.h>

#include "rules.h"

/* The bytes of a command, its kind among them; 0 for an unknown kind. */
static size_t bytes_of(uint8_t kind)
{
    static const size_t bytes[] = {0, 1 + 4 + 8, 1 + 4, 1 + 8, 1 + 4, 1 + 4 + 8, 1};
    return kind <= LENGTH ? bytes[kind] : 0;
}

static int has_index(uint8_t kind)
{
    return kind != PUSH && kind != LENGTH;
}

static int has_element(uint8_t kind)
{
    return kind == INSERT || kind == PUSH || kind == REPLACE;
}

/* A number of so many bytes, the lowest first. */
static uint64_t read_number(const uint8_t *from, size_t bytes)
{
    uint64_t x = 0;
    while (bytes-- > 0)
        x = x << 8 | from[bytes];
    return x;
}

/* Returns the place after the number. */
static uint8_t *write_number(uint8_t *to, uint64_t x, size_t bytes)
{
    for (; bytes > 0; bytes--, x >>= 8)
        *to++ = (uint8_t)x;
    return to;
}

uint64_t stop_due(const uint8_t *input, size_t input_left, size_t output_left)
{
    if (input_left == 0)
        return BAG_DONE;
    if (bytes_of(input[0]) == 0)
        return BAG_UNKNOWN;
    if (input_left < bytes_of(input[0]))
        return BAG_CUT;
    return output_left < 13 ? BAG_FULL : RUNS;
}

struct command read_command(const uint8_t *input, uint64_t n)
{
    struct command c = {input[0], n, 0, bytes_of(input[0])};
    if (has_index(c.kind))
        c.index = read_number(input + 1, 4);
    if (has_element(c.kind))
        c.element = read_number(input + c.bytes - 8, 8);
    return c;
}

size_t write_command(uint8_t *bytes, uint8_t kind, uint64_t index, uint64_t element)
{
    uint8_t *end = write_number(bytes, kind, 1);
    if (has_index(kind))
        end = write_number(end, index, 4);
    if (has_element(kind))
        end = write_number(end, element, 8);
    return (size_t)(end - bytes);
}

uint64_t command_due(const uint64_t *w, const struct held *h, const struct command *c)
{
    if (c->kind == LENGTH)
        return BAG_DONE;
    return c->kind == INSERT || c->kind == PUSH ? insertion_due(w, h, c->index) : element_due(h, c->index);
}

size_t record_due(const uint64_t *w, const struct held *h, const struct command *c, uint8_t *record)
{
    uint64_t number = command_due(w, h, c), compared;
    uint8_t *end = record + 1;
    if (number != 0) {
        record[0] = 0x84;
        end = write_number(end, number, 1);
    } else if (c->kind == GET) {
        record[0] = 0x85;
        find(w, c->index, &compared);
        end = write_number(end, h->elements[c->index], 8);
        end = write_number(end, compared, 4);
    } else if (c->kind == LENGTH) {
        record[0] = 0x83;
        end = write_number(end, h->n, 8);
    } else if (c->kind == REMOVE || c->kind == REPLACE) {
        record[0] = 0x82;
        end = write_number(end, h->elements[c->index], 8);
    } else {
        record[0] = 0x81;
    }
    return (size_t)(end - record);
}

void edit(struct held *h, const struct command *c)
{
    uint64_t *place = h->elements + c->index;
    if (c->kind == INSERT || c->kind == PUSH) {
        memmove(place + 1, place, (h->n - c->index) * sizeof *place);
        h->n++;
    }
    if (has_element(c->kind))
        *place = c->element;
    if (c->kind == REMOVE) {
        h->n--;
        memmove(place, place + 1, (h->n - c->index) * sizeof *place);
    }
}
