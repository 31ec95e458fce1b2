/* For test.c: the memory that is lent to the calls, marked before each, and tests of what it holds afterwards. */
#include "stall.h"

#include <stdio.h>
#include <string.h>

static int failed, tried;

#define CHECK(what)                                            \
    do {                                                       \
        tried++;                                               \
        if (!(what)) {                                         \
            failed++;                                          \
            printf("line %d: not so: %s\n", __LINE__, #what);  \
        }                                                      \
    } while (0)

#define COUNT(a) (sizeof(a) / sizeof((a)[0]))

/* What stands in memory that a call may not touch. */
#define MARK 0x5a

static size_t answer[5];
static uint32_t starts[STALL_MAX_ORDER + 1], columns[STALL_MAX_ENTRIES], rates[STALL_MAX_ENTRIES];
static uint32_t work_m[4096], weight_m[64], share_m[64], group_m[STALL_GROUPS + 4];
static int32_t work_e[4096], weight_e[64], share_e[64], group_e[STALL_GROUPS + 4];
static uint8_t out[STALL_MAX_BYTES + 3];

static int all_marked(const void *memory, size_t from, size_t bytes)
{
    const uint8_t *at = memory;
    for (size_t i = from; i < bytes; i++)
        if (at[i] != MARK)
            return 0;
    return 1;
}

static int all_zero(const void *memory, size_t bytes)
{
    const uint8_t *at = memory;
    for (size_t i = 0; i < bytes; i++)
        if (at[i] != 0)
            return 0;
    return 1;
}

static void mark(void)
{
    memset(answer, MARK, sizeof answer);
    memset(starts, MARK, sizeof starts);
    memset(columns, MARK, sizeof columns);
    memset(rates, MARK, sizeof rates);
    memset(work_m, MARK, sizeof work_m);
    memset(work_e, MARK, sizeof work_e);
    memset(weight_m, MARK, sizeof weight_m);
    memset(weight_e, MARK, sizeof weight_e);
    memset(share_m, MARK, sizeof share_m);
    memset(share_e, MARK, sizeof share_e);
    memset(group_m, MARK, sizeof group_m);
    memset(group_e, MARK, sizeof group_e);
    memset(out, MARK, sizeof out);
}

static int chain_unchanged(void)
{
    return all_marked(starts, 0, sizeof starts) && all_marked(columns, 0, sizeof columns) && all_marked(rates, 0, sizeof rates);
}

/* A chain stands in the slices, and every place beyond it is as it was. */
static int chain_is(size_t n, size_t entries, const uint32_t *s, const uint32_t *c, const uint32_t *r)
{
    return memcmp(starts, s, 4 * (n + 1)) == 0 && all_marked(starts, 4 * (n + 1), sizeof starts)
        && memcmp(columns, c, 4 * entries) == 0 && all_marked(columns, 4 * entries, sizeof columns)
        && memcmp(rates, r, 4 * entries) == 0 && all_marked(rates, 4 * entries, sizeof rates);
}

/* A file stands in the buffer, and every byte beyond it is as it was. */
static int file_is(const uint8_t *file, size_t length)
{
    return memcmp(out, file, length) == 0 && all_marked(out, length, sizeof out);
}

static int results_unchanged(void)
{
    return all_marked(work_m, 0, sizeof work_m) && all_marked(work_e, 0, sizeof work_e)
        && all_marked(weight_m, 0, sizeof weight_m) && all_marked(weight_e, 0, sizeof weight_e)
        && all_marked(share_m, 0, sizeof share_m) && all_marked(share_e, 0, sizeof share_e)
        && all_marked(group_m, 0, sizeof group_m) && all_marked(group_e, 0, sizeof group_e);
}

static int answer_is(size_t first, size_t second, size_t third)
{
    return answer[0] == first && answer[1] == second && answer[2] == third && all_marked(answer + 3, 0, 2 * sizeof answer[3]);
}

static int state_is(int i, uint32_t wm, int32_t we, uint32_t sm, int32_t se)
{
    return weight_m[i] == wm && weight_e[i] == we && share_m[i] == sm && share_e[i] == se;
}

static int group_is(int g, uint32_t m, int32_t e)
{
    return group_m[g] == m && group_e[g] == e;
}

/* After solving n states the n * n work places are 0, and of these and the results all places beyond the needed ones are unchanged. */
static int solved_in_place(size_t n)
{
    return all_zero(work_m, 4 * n * n) && all_marked(work_m, 4 * n * n, sizeof work_m)
        && all_zero(work_e, 4 * n * n) && all_marked(work_e, 4 * n * n, sizeof work_e)
        && all_marked(weight_m, 4 * n, sizeof weight_m) && all_marked(weight_e, 4 * n, sizeof weight_e)
        && all_marked(share_m, 4 * n, sizeof share_m) && all_marked(share_e, 4 * n, sizeof share_e);
}

/* Each call on memory that is marked before. */
static uint32_t solve_fresh(size_t n, const uint32_t *s, size_t sn, const uint32_t *c, size_t cn, const uint32_t *r, size_t rn)
{
    mark();
    return stall_solve(n, s, sn, c, cn, r, rn, work_m, COUNT(work_m), work_e, COUNT(work_e), weight_m, COUNT(weight_m),
                       weight_e, COUNT(weight_e), share_m, COUNT(share_m), share_e, COUNT(share_e), answer, COUNT(answer));
}

static uint32_t groups_fresh(size_t n, const uint32_t *s, size_t sn, const uint32_t *c, size_t cn, const uint32_t *r, size_t rn,
                             const uint32_t *t, size_t tn)
{
    mark();
    return stall_solve_groups(n, s, sn, c, cn, r, rn, t, tn, work_m, COUNT(work_m), work_e, COUNT(work_e), weight_m, COUNT(weight_m),
                              weight_e, COUNT(weight_e), share_m, COUNT(share_m), share_e, COUNT(share_e), group_m, COUNT(group_m),
                              group_e, COUNT(group_e), answer, COUNT(answer));
}

static uint32_t read_fresh(const uint8_t *bytes, size_t length)
{
    mark();
    return stall_read(bytes, length, starts, COUNT(starts), columns, COUNT(columns), rates, COUNT(rates), answer, COUNT(answer));
}

static uint32_t write_fresh(size_t n, const uint32_t *s, size_t sn, const uint32_t *c, size_t cn, const uint32_t *r, size_t rn)
{
    mark();
    return stall_write(n, s, sn, c, cn, r, rn, out, COUNT(out), answer, COUNT(answer));
}

static uint32_t write_short_fresh(size_t n, const uint32_t *s, size_t sn, const uint32_t *c, size_t cn, const uint32_t *r, size_t rn)
{
    mark();
    return stall_write_short(n, s, sn, c, cn, r, rn, out, COUNT(out), answer, COUNT(answer));
}
