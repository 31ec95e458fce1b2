/* Shares by group beside solving alone: `stall_solve`, then `stall_solve_groups`, on one stored chain from standard input. The table has a
 * row for each state, state i in group i mod 16. bench/run counts the instructions of each call. Exits with 1 if one refuses or their
 * weights or shares differ. */
#include "../capi/stall.h"

#include <stdio.h>
#include <string.h>

static uint8_t bytes[STALL_MAX_BYTES + 1];
static uint32_t starts[STALL_MAX_ORDER + 1], columns[STALL_MAX_ENTRIES], rates[STALL_MAX_ENTRIES];
static uint32_t table[3 * STALL_MAX_ORDER], work_m[STALL_MAX_ORDER * STALL_MAX_ORDER], group_m[STALL_GROUPS];
static int32_t work_e[STALL_MAX_ORDER * STALL_MAX_ORDER], group_e[STALL_GROUPS];

/* The results of the two calls. */
static struct {
    uint32_t weight_m[STALL_MAX_ORDER], share_m[STALL_MAX_ORDER];
    int32_t weight_e[STALL_MAX_ORDER], share_e[STALL_MAX_ORDER];
} alone, grouped;

int main(void) {
    size_t answer[3], length = fread(bytes, 1, sizeof bytes, stdin);
    if (stall_read(bytes, length, starts, STALL_MAX_ORDER + 1, columns, STALL_MAX_ENTRIES, rates, STALL_MAX_ENTRIES, answer, 3) != 0) {
        fputs("not a sound stored chain\n", stderr);
        return 1;
    }
    size_t n = answer[0], entries = answer[1];
    for (uint32_t i = 0; i < n; i++) {
        table[3 * i] = table[3 * i + 1] = i;
        table[3 * i + 2] = i % STALL_GROUPS;
    }
    uint32_t first = stall_solve(n, starts, n + 1, columns, entries, rates, entries, work_m, n * n, work_e, n * n, alone.weight_m, n,
                                 alone.weight_e, n, alone.share_m, n, alone.share_e, n, answer, 3);
    uint32_t second = stall_solve_groups(n, starts, n + 1, columns, entries, rates, entries, table, 3 * n, work_m, n * n, work_e, n * n,
                                         grouped.weight_m, n, grouped.weight_e, n, grouped.share_m, n, grouped.share_e, n, group_m,
                                         STALL_GROUPS, group_e, STALL_GROUPS, answer, 3);
    if (first != 0 || second != 0 || memcmp(&alone, &grouped, sizeof alone) != 0) {
        fputs("a call refuses, or the two differ\n", stderr);
        return 1;
    }
    return 0;
}
