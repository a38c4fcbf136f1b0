/* Every call on the pool on trial, at indexes in and beyond the list: each answers what is due, and changes nothing or makes the edit. */
#include "trial.h"

/* After an edit that was due a number: the list that is told, or no word changed. */
static int edited(uint64_t number, uint64_t index, const uint64_t *x, uint64_t gone)
{
    const uint64_t *list = before.elements, end = index + gone;
    return number == 0 ? leaves(list, index, x, list + end, before.n - end) : unchanged();
}

static void try_edits(uint64_t index)
{
    const uint64_t x = index ^ 77;
    uint64_t number = insertion_due(pool, &before, index);
    EXPECT(same(bag_insert(pool, words, index, x), number, 0, 0));
    EXPECT(edited(number, index, &x, 0));

    number = insertion_due(pool, &before, before.n);
    EXPECT(same(bag_push(pool, words, x), number, 0, 0));
    EXPECT(edited(number, before.n, &x, 0));

    number = element_due(&before, index);
    uint64_t old = number == 0 ? before.elements[index] : 0;
    EXPECT(same(bag_replace(pool, words, index, x), number, old, 0));
    EXPECT(edited(number, index, &x, 1));
    EXPECT(same(bag_remove(pool, words, index), number, old, 0));
    EXPECT(edited(number, index, NULL, 1));
}

void try_lookups(uint64_t index)
{
    uint64_t number = element_due(&before, index), compared = 0;
    bag_part place = {0, 0};
    if (number == 0)
        place = find(pool, index, &compared);
    EXPECT(same(bag_get(pool, words, index), number, number ? 0 : before.elements[index], compared));
    EXPECT(unchanged());
    bag_part part = bag_window(pool, words, index);
    EXPECT(part.start == place.start && part.count == place.count);
    EXPECT(unchanged());
}

static int walked(bag_walked got, uint64_t position, uint64_t m)
{
    uint64_t n = before.n;
    if (before.number != 0)
        return got.number == before.number && got.element == 0 && got.position == position;
    if (position >= n || m >= n - position)
        return got.number == BAG_BEYOND && got.element == 0 && got.position == n;
    return got.number == 0 && got.element == before.elements[position + m] && got.position == position + m + 1;
}

static void try_whole(void)
{
    EXPECT(same(bag_check(pool, words), before.number, 0, 0));
    EXPECT(unchanged());
    EXPECT(same(bag_len(pool, words), before.number, before.n, 0));
    EXPECT(unchanged());
    EXPECT(same(bag_equal(pool, words, pool, words), before.number, before.number == 0, 0));
    EXPECT(unchanged());
    uint64_t number = before.number == BAG_MISFIT ? BAG_MISFIT : BAG_DONE;
    EXPECT(same(bag_format(pool, words), number, 0, 0));
    if (number == 0)
        EXPECT(leaves(before.elements, 0, NULL, before.elements, 0));
    else
        EXPECT(unchanged());
}

#define INDEXES 8

void try_pool(const char *what)
{
    put_on_trial(what);
    uint64_t n = before.n;
    const uint64_t index[INDEXES] = {0, n / 2, n - 1, n, n + 1, (uint64_t)1 << 32, (uint64_t)1 << 63, UINT64_MAX};
    try_whole();
    try_batches();
    for (int i = 0; i < INDEXES; i++) {
        try_lookups(index[i]);
        try_edits(index[i]);
        EXPECT(walked(bag_step(pool, words, index[i]), index[i], 0));
        EXPECT(unchanged());
        for (int j = 0; j < INDEXES; j++) {
            EXPECT(walked(bag_skip(pool, words, index[i], index[j]), index[i], index[j]));
            EXPECT(unchanged());
        }
    }
}

void try_unsound(const char *what)
{
    try_pool(what);
    EXPECT(before.number == BAG_UNSOUND);
}
