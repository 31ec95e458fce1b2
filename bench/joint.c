/* Joining beside plain C: `stall_join`, then `plain_join`, on two stored chains from standard input, each after its length in two bytes, low
 * byte first. bench/run counts the instructions of each call. Exits with 1 if one refuses or their joint chains differ. */
#include "../capi/stall.h"

#include <stdio.h>
#include <string.h>

struct chain {
    size_t n, entries;
    uint32_t starts[STALL_MAX_ORDER + 1], columns[STALL_MAX_ENTRIES], rates[STALL_MAX_ENTRIES];
};

static struct chain first, second, proved, plain;
static uint8_t bytes[STALL_MAX_BYTES];

static int read_part(struct chain *c) {
    size_t answer[3], low = (size_t)getchar(), length = low + 256 * (size_t)getchar();
    if (length > sizeof bytes || fread(bytes, 1, length, stdin) != length)
        return 0;
    if (stall_read(bytes, length, c->starts, STALL_MAX_ORDER + 1, c->columns, STALL_MAX_ENTRIES, c->rates, STALL_MAX_ENTRIES, answer, 3) != 0)
        return 0;
    c->n = answer[0];
    c->entries = answer[1];
    return 1;
}

/* The rules of a chain, as both calls test them. */
static int sound(const struct chain *c) {
    if (c->n < 1 || c->n > STALL_MAX_ORDER || c->starts[0] != 0 || c->starts[c->n] != c->entries)
        return 0;
    for (size_t i = 0; i < c->n; i++)
        if (c->starts[i + 1] < c->starts[i])
            return 0;
    for (size_t i = 0; i < c->n; i++)
        for (size_t p = c->starts[i]; p < c->starts[i + 1]; p++)
            if (c->columns[p] >= c->n || c->columns[p] == i || (p > c->starts[i] && c->columns[p] <= c->columns[p - 1]) || c->rates[p] == 0)
                return 0;
    return 1;
}

static void put(struct chain *c, size_t column, uint32_t rate) {
    c->columns[c->entries] = (uint32_t)column;
    c->rates[c->entries++] = rate;
}

/* In row i * b + j: the first part's entries before its diagonal, the second part's row, the first part's other entries. */
__attribute__((noinline)) int plain_join(const struct chain *a, const struct chain *b, struct chain *c) {
    if (!sound(a) || !sound(b) || a->n * b->n > STALL_MAX_ORDER)
        return 0;
    c->n = a->n * b->n;
    for (size_t i = 0; i < a->n; i++)
        for (size_t j = 0; j < b->n; j++) {
            size_t p = a->starts[i];
            c->starts[i * b->n + j] = (uint32_t)c->entries;
            for (; p < a->starts[i + 1] && a->columns[p] < i; p++)
                put(c, a->columns[p] * b->n + j, a->rates[p]);
            for (size_t q = b->starts[j]; q < b->starts[j + 1]; q++)
                put(c, i * b->n + b->columns[q], b->rates[q]);
            for (; p < a->starts[i + 1]; p++)
                put(c, a->columns[p] * b->n + j, a->rates[p]);
        }
    c->starts[c->n] = (uint32_t)c->entries;
    return 1;
}

int main(void) {
    size_t answer[4];
    if (!read_part(&first) || !read_part(&second)) {
        fputs("not two sound stored chains\n", stderr);
        return 1;
    }
    uint32_t refusal = stall_join(first.n, first.starts, first.n + 1, first.columns, first.entries, first.rates, first.entries, second.n,
                                  second.starts, second.n + 1, second.columns, second.entries, second.rates, second.entries, proved.starts,
                                  STALL_MAX_ORDER + 1, proved.columns, STALL_MAX_ENTRIES, proved.rates, STALL_MAX_ENTRIES, answer, 4);
    proved.n = first.n * second.n;
    proved.entries = answer[0];
    if (refusal != 0 || !plain_join(&first, &second, &plain) || memcmp(&proved, &plain, sizeof proved) != 0) {
        fputs("a call refuses, or the two differ\n", stderr);
        return 1;
    }
    return 0;
}
