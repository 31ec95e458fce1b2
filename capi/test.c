/* Tests of the six exported calls from C. Exits 0 if all hold, and says which do not. */
#define _XOPEN_SOURCE 700 /* for ucontext.h, in test_stack.h */
#include "test_memory.h"

/* Case 2 of docs/FORMAT.md: 0 to 1 rate 3, 1 to 0 rate 1. */
static const uint8_t case2[] = {2, 2, 3, 0, 0, 0, 1, 1, 0, 0, 0};
static const uint32_t starts2[] = {0, 1, 2}, columns2[] = {1, 0}, rates2[] = {3, 1};

/* Case 3: the ring 0 to 1 rate 2, 1 to 2 rate 4, 2 to 0 rate 8; and a table for it: states 0 and 1 in group 3, state 2 in group 15. */
static const uint32_t starts3[] = {0, 1, 2, 3}, columns3[] = {1, 2, 0}, rates3[] = {2, 4, 8}, table3[] = {0, 1, 3, 2, 2, 15};

/* Case 7, with the starts of case 3: 0 to 1, 1 to 0 and 2 to 0, all rate 1. State 2 is outside the closed set. */
static const uint32_t columns7[] = {1, 0, 0}, rates7[] = {1, 1, 1};

#include "test_zero_rates.h"
#include "test_join.h"
#include "test_forms.h"
#include "test_stack.h"

static void read_solve_write(void)
{
    CHECK(read_fresh(case2, sizeof case2) == 0);
    CHECK(answer_is(2, 2, 1));
    CHECK(chain_is(2, 2, starts2, columns2, rates2));

    CHECK(solve_fresh(2, starts2, 3, columns2, 2, rates2, 2) == 0);
    CHECK(answer_is(8, 0, 0));
    CHECK(state_is(0, 2863311531u, -33, 2147483648u, -33) && state_is(1, 2147483648u, -31, 3221225472u, -32) && solved_in_place(2));

    CHECK(write_fresh(2, starts2, 3, columns2, 2, rates2, 2) == 0);
    CHECK(answer_is(sizeof case2, 0, 0));
    CHECK(file_is(case2, sizeof case2));
}

static void groups(void)
{
    static const uint32_t rates311[] = {3, 1, 1}, rows_falling[] = {1, 2, 7, 0, 0, 7};

    CHECK(groups_fresh(3, starts3, 4, columns3, 3, rates3, 3, table3, COUNT(table3)) == 0);
    CHECK(answer_is(28, 0, 0));
    for (int g = 0; g < STALL_GROUPS; g++)
        CHECK(g == 3 ? group_is(g, 3681400539u, -32) : g == 15 ? group_is(g, 2454267026u, -34) : group_is(g, 0, 0));
    CHECK(all_marked(group_m, 64, sizeof group_m) && all_marked(group_e, 64, sizeof group_e));
    for (int i = 0; i < 3; i++)
        CHECK(state_is(i, 2147483648u, -29 - i, 2454267026u, -32 - i));
    CHECK(solved_in_place(3));

    /* Summed from the lowest state up, whatever the order of the rows: falling, or row by row, the last bit would be another. */
    CHECK(groups_fresh(3, starts3, 4, columns3, 3, rates311, 3, rows_falling, COUNT(rows_falling)) == 0 && answer_is(28, 0, 0));
    CHECK(share_m[0] == 2454267026u && share_e[0] == -34 && share_m[2] == 3681400538u && share_e[2] == -33);
    CHECK(group_is(7, 4294967295u, -32) && group_is(0, 0, 0));
}

/* The ring of case 3 with a bad table: the refusal, its first place and unchanged memory. */
static int table_refused(uint32_t number, size_t place, const uint32_t *t, size_t tn)
{
    return groups_fresh(3, starts3, 4, columns3, 3, rates3, 3, t, tn) == number && answer_is(place, 0, STALL_CHAIN) && results_unchanged();
}

static void groups_refusals(void)
{
    static const uint32_t falls[] = {2, 1, 3, 0, 2, 0}, far_last[] = {0, 1, 3, 2, 3, 0}, far_both[] = {0, 2, 0, 3, 3, 0};
    static const uint32_t far_group[] = {0, 1, 3, 2, 2, 16}, highest[] = {UINT32_MAX, UINT32_MAX, UINT32_MAX};
    static const uint32_t two_bad[] = {0, 2, 0, 1, 0, 0, 0, 9, 9};
    static const uint32_t overlap[] = {0, 1, 0, 1, 2, 0}, again[] = {0, 2, 5, 0, 2, 5}, two_twice[] = {2, 2, 0, 1, 2, 0, 1, 1, 0, 0, 0, 0};
    static const uint32_t thrice[] = {0, 0, 1, 1, 2, 2, 2, 2, 3, 2, 2, 4}, no_low_state[] = {2, 2, 0, 2, 2, 1};
    static const uint32_t no_first[] = {1, 2, 0}, no_middle[] = {2, 2, 0, 0, 0, 0}, no_last[] = {0, 1, 3};

    CHECK(table_refused(13, 1, table3, 5)); /* cut short by one, by two */
    CHECK(table_refused(13, 1, table3, 4));
    CHECK(table_refused(13, 0, table3, 2));
    CHECK(table_refused(13, 0, table3, 1));
    CHECK(table_refused(13, 0, falls, COUNT(falls)));
    CHECK(table_refused(13, 1, far_last, COUNT(far_last)));
    CHECK(table_refused(13, 1, far_both, COUNT(far_both)));
    CHECK(table_refused(13, 1, far_group, COUNT(far_group)));
    CHECK(table_refused(13, 0, highest, COUNT(highest)));
    CHECK(table_refused(13, 1, two_bad, COUNT(two_bad))); /* the lowest row */

    CHECK(table_refused(12, 1, overlap, COUNT(overlap)));
    CHECK(table_refused(12, 0, again, COUNT(again)));
    CHECK(table_refused(12, 1, two_twice, COUNT(two_twice))); /* the lowest state, not that of the first row */
    CHECK(table_refused(12, 2, thrice, COUNT(thrice)));
    CHECK(table_refused(12, 2, no_low_state, COUNT(no_low_state))); /* though state 0 is in no row */

    CHECK(table_refused(11, 0, no_first, COUNT(no_first)));
    CHECK(table_refused(11, 1, no_middle, COUNT(no_middle)));
    CHECK(table_refused(11, 2, no_last, COUNT(no_last)));
    CHECK(table_refused(11, 0, table3, 0)); /* the empty table */
}

/* A call with everything wrong, then mended in one thing after the other: the refusals come in their order. */
static void groups_order(void)
{
    static const uint32_t late[] = {1, 1, 2, 3}, own[] = {1, 1, 0}, zeros[] = {2, 0, 0};
    static const uint32_t stuck[] = {0, 1, 1, 1}; /* of the ring only 0 to 1: two closed sets, 1 and 2 */
    static const uint32_t bad_row[] = {0, 1, 3, 1, 1, 16}, twice[] = {0, 1, 3, 1, 1, 15}, missing[] = {0, 1, 3};
    static const struct {
        uint32_t number;
        size_t first, second, n;
        const uint32_t *starts, *columns;
        size_t columns_length;
        const uint32_t *rates;
        size_t rates_length;
        const uint32_t *table;
        size_t table_length, group_places;
    } calls[] = {
        {1, 0, 0, 65, late, own, 3, zeros, 2, bad_row, 6, 15},
        {2, 0, 0, 3, late, own, 3, zeros, 2, bad_row, 6, 15},
        {3, 0, 0, 3, late, own, 3, zeros, 3, bad_row, 6, 15},
        {4, 1, 1, 3, starts3, own, 3, zeros, 3, bad_row, 6, 15},
        {14, 1, 2, 3, starts3, columns3, 3, zeros, 3, bad_row, 6, 15},
        {13, 1, 0, 3, stuck, columns3, 1, rates3, 1, bad_row, 6, 15},
        {12, 1, 0, 3, stuck, columns3, 1, rates3, 1, twice, 6, 15},
        {11, 2, 0, 3, stuck, columns3, 1, rates3, 1, missing, 3, 15},
        {5, 0, 0, 3, stuck, columns3, 1, rates3, 1, table3, 6, 15},
        {6, 1, 2, 3, stuck, columns3, 1, rates3, 1, table3, 6, 16},
        {0, 28, 0, 3, starts3, columns3, 3, rates3, 3, table3, 6, 16},
    };

    for (size_t i = 0; i < COUNT(calls); i++) {
        mark();
        CHECK(stall_solve_groups(calls[i].n, calls[i].starts, 4, calls[i].columns, calls[i].columns_length, calls[i].rates,
                                 calls[i].rates_length, calls[i].table, calls[i].table_length, work_m, 9, work_e, 9, weight_m, 3, weight_e,
                                 3, share_m, 3, share_e, 3, group_m, calls[i].group_places, group_e, 16, answer, COUNT(answer))
              == calls[i].number);
        CHECK(answer_is(calls[i].first, calls[i].second, STALL_CHAIN));
        CHECK(calls[i].number == 0 ? group_is(3, 3681400539u, -32) : results_unchanged());
    }
}

static void solve_refusals(void)
{
    static const uint32_t none[1], own[] = {0, 0}, falls[] = {0, 2, 1}, ones[] = {1, 1, 1};

    CHECK(solve_fresh(0, none, 1, none, 0, none, 0) == 1 && answer_is(0, 0, STALL_CHAIN) && results_unchanged());
    CHECK(solve_fresh(65, none, 1, none, 0, none, 0) == 1 && answer_is(0, 0, STALL_CHAIN) && results_unchanged());
    CHECK(solve_fresh(2, starts2, 3, columns2, 2, rates2, 1) == 2 && answer_is(0, 0, STALL_CHAIN) && results_unchanged());
    CHECK(solve_fresh(2, starts2, 2, columns2, 2, rates2, 2) == 3 && answer_is(0, 0, STALL_CHAIN) && results_unchanged());
    CHECK(solve_fresh(2, falls, 3, columns2, 1, rates2, 1) == 3 && answer_is(0, 0, STALL_CHAIN) && results_unchanged());
    CHECK(solve_fresh(2, starts2, 3, own, 2, rates2, 2) == 4 && answer_is(0, 0, STALL_CHAIN) && results_unchanged());
    CHECK(solve_fresh(2, starts2, 3, ones, 2, rates2, 2) == 4 && answer_is(1, 1, STALL_CHAIN) && results_unchanged());
    /* case 1 */
    CHECK(solve_fresh(1, own, 2, none, 0, none, 0) == 0 && answer_is(0, 0, 0) && weight_m[0] == 2147483648u && weight_e[0] == -31);
}

/* Two closed sets or more: 6 with the two lowest of their lowest states. */
static void closed_sets_refused(void)
{
    static const uint32_t none[1], no_entries[65];
    static const uint32_t pairs[] = {0, 1, 2, 3, 4}, across[] = {1, 0, 3, 2}, crossed[] = {3, 2, 1, 0}, fours[] = {4, 4, 4, 4};
    static const uint32_t three[] = {0, 1, 1, 2, 3, 3}, to[] = {4, 3, 2}, ones[] = {1, 1, 1};

    CHECK(solve_fresh(2, no_entries, 3, none, 0, none, 0) == 6 && answer_is(0, 1, STALL_CHAIN) && results_unchanged());
    CHECK(solve_fresh(64, no_entries, 65, none, 0, none, 0) == 6 && answer_is(0, 1, STALL_CHAIN) && results_unchanged());
    /* 0 and 1, 2 and 3; then 0 and 3, 1 and 2 */
    CHECK(solve_fresh(4, pairs, 5, across, 4, fours, 4) == 6 && answer_is(0, 2, STALL_CHAIN) && results_unchanged());
    CHECK(solve_fresh(4, pairs, 5, crossed, 4, fours, 4) == 6 && answer_is(0, 1, STALL_CHAIN) && results_unchanged());
    /* three sets: 1, then 2 and 3, then 4, into which 0 leads */
    CHECK(solve_fresh(5, three, 6, to, 3, ones, 3) == 6 && answer_is(1, 2, STALL_CHAIN) && results_unchanged());
}

/* One closed set, and states outside it: they get Zero, and the count is that of the set. */
static void states_outside(void)
{
    static const uint32_t one_way[] = {0, 1, 1}, back[] = {0, 0, 1}, table7[] = {2, 2, 4, 0, 1, 9}, mixed7[] = {1, 2, 4, 0, 0, 9};
    static const uint32_t starts5[] = {0, 1, 2, 3, 5, 6}, columns5[] = {2, 3, 4, 1, 2, 0}, rates5[] = {2, 7, 4, 1, 1, 8};

    CHECK(solve_fresh(2, one_way, 3, columns2, 1, rates2, 1) == 0 && answer_is(0, 0, 0) && solved_in_place(2)); /* only 0 to 1 */
    CHECK(state_is(0, 0, 0, 0, 0) && state_is(1, 2147483648u, -31, 2147483648u, -31));
    /* case 6 cleaned, only 1 to 0; case 7 */
    CHECK(solve_fresh(2, back, 3, columns2 + 1, 1, rates2, 1) == 0 && answer_is(0, 0, 0) && solved_in_place(2));
    CHECK(state_is(0, 2147483648u, -31, 2147483648u, -31) && state_is(1, 0, 0, 0, 0));
    CHECK(solve_fresh(3, starts3, 4, columns7, 3, rates7, 3) == 0 && answer_is(8, 0, 0) && solved_in_place(3));
    CHECK(state_is(0, 2147483648u, -31, 2147483648u, -32) && state_is(1, 2147483648u, -31, 2147483648u, -32) && state_is(2, 0, 0, 0, 0));
    /* The ring of case 3 as states 0, 2 and 4; from 1 and 3, which lead to each other, the way goes to 2. */
    CHECK(solve_fresh(5, starts5, 6, columns5, 6, rates5, 6) == 0 && answer_is(28, 0, 0) && solved_in_place(5));
    for (int i = 0; i < 3; i++)
        CHECK(state_is(2 * i, 2147483648u, -29 - i, 2454267026u, -32 - i));
    CHECK(state_is(1, 0, 0, 0, 0) && state_is(3, 0, 0, 0, 0));

    /* Case 7 by group: a group outside is Zero, one with a state outside has the share of its others. */
    CHECK(groups_fresh(3, starts3, 4, columns7, 3, rates7, 3, table7, COUNT(table7)) == 0 && answer_is(8, 0, 0) && solved_in_place(3));
    CHECK(group_is(4, 0, 0) && group_is(9, 2147483648u, -31));
    CHECK(groups_fresh(3, starts3, 4, columns7, 3, rates7, 3, mixed7, COUNT(mixed7)) == 0 && answer_is(8, 0, 0) && solved_in_place(3));
    CHECK(group_is(4, 2147483648u, -32) && group_is(9, 2147483648u, -32));
}

static void read_refusals(void)
{
    static const uint8_t none[1], order0[] = {0}, order65[] = {65}, order64[] = {64};
    static const uint8_t own_bit[] = {1, 1}, far_bit[] = {2, 2, 3, 0, 0, 0, 4}, extra[] = {1, 0, 0};

    CHECK(read_fresh(none, 0) == 8 && answer_is(0, 0, STALL_BYTES) && chain_unchanged());
    CHECK(read_fresh(order0, 1) == 1 && answer_is(0, 0, STALL_BYTES) && chain_unchanged());
    CHECK(read_fresh(order65, 1) == 1 && answer_is(0, 0, STALL_BYTES) && chain_unchanged());
    CHECK(read_fresh(order64, 1) == 8 && answer_is(0, 0, STALL_BYTES) && chain_unchanged());
    CHECK(read_fresh(case2, 3) == 8 && answer_is(0, 0, STALL_BYTES) && chain_unchanged());
    CHECK(read_fresh(own_bit, 2) == 9 && answer_is(0, 0, STALL_BYTES) && chain_unchanged());
    CHECK(read_fresh(far_bit, 7) == 9 && answer_is(1, 2, STALL_BYTES) && chain_unchanged());
    CHECK(read_fresh(extra, 3) == 10 && answer_is(0, 0, STALL_BYTES) && chain_unchanged());
}

static void short_buffers(void)
{
    /* The six slices of solving, each one place short. */
    for (int i = 0; i < 6; i++) {
        mark();
        CHECK(stall_solve(2, starts2, 3, columns2, 2, rates2, 2, work_m, 4 - (i == 0), work_e, 4 - (i == 1), weight_m, 2 - (i == 2),
                          weight_e, 2 - (i == 3), share_m, 2 - (i == 4), share_e, 2 - (i == 5), answer, COUNT(answer)) == 5);
        CHECK(answer_is(0, 0, STALL_CHAIN) && results_unchanged());
    }
    /* The same for case 7: room for the two states of the closed set is not enough. */
    for (int i = 0; i < 6; i++) {
        mark();
        CHECK(stall_solve(3, starts3, 4, columns7, 3, rates7, 3, work_m, i == 0 ? 4 : 9, work_e, i == 1 ? 8 : 9, weight_m, 3 - (i == 2),
                          weight_e, 3 - (i == 3), share_m, 3 - (i == 4), share_e, 3 - (i == 5), answer, COUNT(answer)) == 5);
        CHECK(answer_is(0, 0, STALL_CHAIN) && results_unchanged());
    }
    /* The eight of solving by group, and none of them short. */
    for (int i = 0; i < 9; i++) {
        mark();
        CHECK(stall_solve_groups(3, starts3, 4, columns3, 3, rates3, 3, table3, 6, work_m, 9 - (i == 0), work_e, 9 - (i == 1), weight_m,
                                 3 - (i == 2), weight_e, 3 - (i == 3), share_m, 3 - (i == 4), share_e, 3 - (i == 5), group_m,
                                 16 - (i == 6), group_e, 16 - (i == 7), answer, COUNT(answer)) == (i < 8 ? 5 : 0));
        CHECK(i < 8 ? answer_is(0, 0, STALL_CHAIN) && results_unchanged() : answer_is(28, 0, 0) && group_is(15, 2454267026u, -34));
    }
    for (int i = 0; i < 3; i++) {
        mark();
        CHECK(stall_read(case2, sizeof case2, starts, 3 - (i == 0), columns, 2 - (i == 1), rates, 2 - (i == 2), answer, COUNT(answer)) == 5);
        CHECK(answer_is(0, 0, STALL_BYTES) && chain_unchanged());
    }
    mark();
    CHECK(stall_write(2, starts2, 3, columns2, 2, rates2, 2, out, sizeof case2 - 1, answer, COUNT(answer)) == 5);
    CHECK(answer_is(0, 0, STALL_CHAIN) && all_marked(out, 0, sizeof out));
}

static void short_answers(void)
{
    for (size_t length = 0; length < 3; length++) {
        mark();
        CHECK(stall_read(case2, sizeof case2, starts, COUNT(starts), columns, COUNT(columns), rates, COUNT(rates), answer, length) == 0);
        CHECK(all_marked(answer, 0, sizeof answer) && starts[2] == 2);
        CHECK(stall_read(case2, 3, starts, COUNT(starts), columns, COUNT(columns), rates, COUNT(rates), answer, length) == 8);
        CHECK(stall_write(2, starts2, 3, columns2, 2, rates2, 2, out, sizeof out, answer, length) == 0);
        CHECK(stall_write(2, starts2, 3, columns2, 2, rates2, 2, out, 0, answer, length) == 5);
        CHECK(all_marked(answer, 0, sizeof answer));
        for (size_t numbers = 5; numbers <= 6; numbers++) { /* 13, then accepted */
            CHECK(stall_solve_groups(3, starts3, 4, columns3, 3, rates3, 3, table3, numbers, work_m, 9, work_e, 9, weight_m, 3, weight_e, 3,
                                     share_m, 3, share_e, 3, group_m, 16, group_e, 16, answer, length) == (numbers == 5 ? 13 : 0));
            CHECK(all_marked(answer, 0, sizeof answer) && (numbers == 5 ? results_unchanged() : group_is(3, 3681400539u, -32)));
        }
    }
    mark();
    CHECK(stall_read(case2, sizeof case2, starts, 3, columns, 2, rates, 2, answer, 3) == 0 && answer_is(2, 2, 1));
}

/* Case 10: order 64, every rate 1, stored, read, solved, and solved with a row for each state, four states a group. */
static void largest(void)
{
    static uint32_t s[65], c[STALL_MAX_ENTRIES], r[STALL_MAX_ENTRIES], t[3 * 64];
    static uint8_t file[STALL_MAX_BYTES_FORM_1];
    size_t k = 0;
    for (uint32_t i = 0; i < 64; i++) {
        for (uint32_t j = 0; j < 64; j++)
            if (j != i) {
                c[k] = j;
                r[k++] = 1;
            }
        s[i + 1] = (uint32_t)k;
        t[3 * i] = t[3 * i + 1] = 63 - i;
        t[3 * i + 2] = i % 16;
    }
    CHECK(write_fresh(64, s, 65, c, k, r, k) == 0 && answer_is(sizeof file, 0, 0));
    memcpy(file, out, sizeof file);
    CHECK(read_fresh(file, sizeof file) == 0 && answer_is(64, STALL_MAX_ENTRIES, 1));
    CHECK(memcmp(starts, s, sizeof s) == 0 && memcmp(columns, c, sizeof c) == 0 && memcmp(rates, r, sizeof r) == 0);
    CHECK(solve_fresh(64, s, 65, c, k, r, k) == 0 && answer_is(182784, 0, 0) && all_zero(work_m, sizeof work_m));
    for (int i = 0; i < 64; i++) /* each share is 1/64 */
        CHECK(share_m[i] == 2147483648u && share_e[i] == -37);
    CHECK(groups_fresh(64, s, 65, c, k, r, k, t, COUNT(t)) == 0 && answer_is(182784, 0, 0) && all_zero(work_e, sizeof work_e));
    for (int g = 0; g < STALL_GROUPS; g++) /* each group has 1/16 */
        CHECK(group_is(g, 2147483648u, -35));
}

/* Moves between neighbours of 64 states, up by rate 1 from the states below the last, down by the highest; none between 31 and 32 if
 * the two are apart. Gives the number of entries. */
static size_t levels(uint32_t *s, uint32_t *c, uint32_t *r, uint32_t last, int apart)
{
    size_t k = 0;
    for (uint32_t i = 0; i < 64; i++) {
        if (i > 0 && !(apart && i == 32)) {
            c[k] = i - 1;
            r[k++] = UINT32_MAX;
        }
        if (i < last && !(apart && i == 31)) {
            c[k] = i + 1;
            r[k++] = 1;
        }
        s[i + 1] = (uint32_t)k;
    }
    return k;
}

/* Shares down to about 2^-2016. Then the same without the last move up, so that the last state is outside the closed set; then also
 * cut between 31 and 32, so that there are two. */
static void rarest(void)
{
    static uint32_t s[65], c[126], r[126];
    for (int last = 63; last >= 62; last--) {
        size_t k = levels(s, c, r, (uint32_t)last, 0);
        CHECK(solve_fresh(64, s, 65, c, k, r, k) == 0 && answer_is(last == 63 ? 182784 : 174468, 0, 0) && solved_in_place(64));
        for (int i = 0; i <= last; i++) {
            CHECK(weight_m[i] >= 2147483648u && share_m[i] >= 2147483648u);
            /* The exact weight over the last one is (2^32 - 1)^(last - i), a little below 2^(32 * (last - i)) but for the last. */
            CHECK(weight_e[i] == (i < last ? 32 * (last - i) - 32 : -31));
            /* The exact share is about 2^(-32 * i), the first one below 1; where rounding leaves it is known from the model in tests/. */
            CHECK(share_e[i] == -32 * i - (i > 0 ? 31 : 32));
        }
        CHECK(last == 63 || state_is(63, 0, 0, 0, 0));
    }
    size_t k = levels(s, c, r, 62, 1);
    CHECK(k == 123 && solve_fresh(64, s, 65, c, k, r, k) == 6 && answer_is(0, 32, STALL_CHAIN) && results_unchanged());
}

int main(void)
{
    read_solve_write();
    groups();
    groups_refusals();
    groups_order();
    solve_refusals();
    closed_sets_refused();
    states_outside();
    read_refusals();
    zero_rates();
    zero_rates_read();
    joins();
    joint_edges();
    join_refusals();
    join_room();
    join_short_answers();
    both_forms();
    seeded_forms();
    longest_forms();
    form_refusals();
    write_refusals();
    form_short_answers();
    short_buffers();
    short_answers();
    largest();
    rarest();
    stack_used();
    printf("C: %d checks, %d failed\n", tried, failed);
    return failed != 0;
}
