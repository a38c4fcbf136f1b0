/* The rules of a pool: which words are sound, what list they hold, and what a call on them must answer. */
#include <string.h>

#include "rules.h"

static unsigned char met[BAG_MOST_NODES + 1];

size_t at(uint64_t k, size_t word)
{
    return 2 + 66 * (size_t)(k - 1) + word;
}

static int zeros(const uint64_t *w, size_t from, size_t to)
{
    while (from < to)
        if (w[from++] != 0)
            return 0;
    return 1;
}

/* Reads the tree at node k into h. Every leaf lies as deep as the first one. */
static int read_node(const uint64_t *w, uint64_t nodes, uint64_t k, uint64_t least, int depth, int *leaf_depth, struct held *h)
{
    uint64_t old = h->n;
    if (k < 1 || k > nodes || met[k]++)
        return 0;
    const uint64_t *node = w + at(k, 0);
    uint64_t n = node[0];
    if (n < least || n > 31 || !zeros(node, 2 + n, 33) || node[65] != 0)
        return 0;
    if (node[33] == 0) {
        memcpy(h->elements + h->n, node + 2, n * sizeof *node);
        h->n += n;
        if (*leaf_depth < 0)
            *leaf_depth = depth;
        return node[1] == n && zeros(node, 33, 65) && *leaf_depth == depth;
    }
    for (uint64_t c = 0; c <= n; c++) {
        if (!read_node(w, nodes, node[33 + c], 15, depth + 1, leaf_depth, h))
            return 0;
        if (c < n)
            h->elements[h->n++] = node[2 + c];
    }
    return node[1] == h->n - old && zeros(node, 33 + n + 1, 65);
}

/* Reads the free chain; then every node has been met. */
static int read_chain(const uint64_t *w, uint64_t nodes, struct held *h)
{
    for (uint64_t k = w[1]; k != 0; k = w[at(k, 65)]) {
        if (k > nodes || met[k]++ || !zeros(w, at(k, 0), at(k, 65)))
            return 0;
        h->free++;
    }
    for (uint64_t k = 1; k <= nodes; k++)
        if (!met[k])
            return 0;
    return 1;
}

void read_pool(const uint64_t *w, size_t length, struct held *h)
{
    int leaf_depth = -1;
    h->n = h->free = 0;
    h->number = BAG_MISFIT;
    if (length < 2 || (length - 2) % 66 != 0 || (length - 2) / 66 > 4096)
        return;
    uint64_t nodes = (length - 2) / 66;
    memset(met, 0, sizeof met);
    int sound = (w[0] == 0 || read_node(w, nodes, w[0], 1, 0, &leaf_depth, h)) && read_chain(w, nodes, h);
    h->number = sound ? BAG_DONE : BAG_UNSOUND;
    if (!sound)
        h->n = h->free = 0;
}

/* The child that an index goes to, and the index in it; returns the number of children compared. */
static uint64_t child(const uint64_t *w, uint64_t *k, uint64_t *index)
{
    uint64_t c = 0, node = *k;
    for (; *index > w[at(w[at(node, 33 + c)], 1)]; c++)
        *index -= w[at(w[at(node, 33 + c)], 1)] + 1;
    *k = w[at(node, 33 + c)];
    return c + 1;
}

bag_part find(const uint64_t *w, uint64_t index, uint64_t *compared)
{
    uint64_t k = w[0];
    *compared = 0;
    while (w[at(k, 33)] != 0) {
        uint64_t above = k;
        uint64_t c = child(w, &k, &index);
        *compared += c;
        if (index == w[at(k, 1)])
            return (bag_part){at(above, 2 + c - 1), 1};
    }
    return (bag_part){at(k, 2 + index), w[at(k, 0)] - index};
}

/* The nodes that an insertion needs: the full ones on its path, one more for a full root, 1 for an empty list. */
static uint64_t needed(const uint64_t *w, uint64_t index)
{
    uint64_t k = w[0];
    if (k == 0)
        return 1;
    uint64_t need = (w[at(k, 0)] == 31) * 2;
    while (w[at(k, 33)] != 0) {
        child(w, &k, &index);
        need += w[at(k, 0)] == 31;
    }
    return need;
}

uint64_t insertion_due(const uint64_t *w, const struct held *h, uint64_t index)
{
    if (h->number != 0)
        return h->number;
    if (index > h->n)
        return BAG_BEYOND;
    return needed(w, index) > h->free ? BAG_NO_ROOM : BAG_DONE;
}

uint64_t element_due(const struct held *h, uint64_t index)
{
    if (h->number != 0)
        return h->number;
    return index >= h->n ? BAG_BEYOND : BAG_DONE;
}
