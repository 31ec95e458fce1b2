/* For test.c: a rate of 0 in a chain and in stored bytes, refusal 14. It uses the two states of case 2. */

/* A chain with a fault in it, to solving, solving by group and writing in both forms, with enough lent and with nothing: the refusal is the same. */
static int chain_refused(uint32_t number, size_t first, size_t second, size_t n, const uint32_t *s, const uint32_t *c, const uint32_t *r)
{
    static const uint32_t bad_table[] = {1, 0, 16};
    const uint32_t k = s[n];
    int so = solve_fresh(n, s, n + 1, c, k, r, k) == number && answer_is(first, second, STALL_CHAIN) && results_unchanged();
    so &= groups_fresh(n, s, n + 1, c, k, r, k, bad_table, 3) == number && answer_is(first, second, STALL_CHAIN) && results_unchanged();
    so &= write_fresh(n, s, n + 1, c, k, r, k) == number && answer_is(first, second, STALL_CHAIN) && all_marked(out, 0, sizeof out);
    so &= write_short_fresh(n, s, n + 1, c, k, r, k) == number && answer_is(first, second, STALL_CHAIN) && all_marked(out, 0, sizeof out);
    mark();
    so &= stall_solve(n, s, n + 1, c, k, r, k, work_m, 0, work_e, 0, weight_m, 0, weight_e, 0, share_m, 0, share_e, 0, answer, 4) == number
        && answer_is(first, second, STALL_CHAIN) && results_unchanged();
    mark();
    so &= stall_solve_groups(n, s, n + 1, c, k, r, k, bad_table, 3, work_m, 0, work_e, 0, weight_m, 0, weight_e, 0, share_m, 0, share_e, 0,
                             group_m, 0, group_e, 0, answer, 2) == number
        && all_marked(answer, 0, sizeof answer) && results_unchanged();
    mark();
    so &= stall_write_short(n, s, n + 1, c, k, r, k, out, 0, answer, 4) == number && answer_is(first, second, STALL_CHAIN)
        && all_marked(out, 0, sizeof out);
    mark();
    return so && stall_write(n, s, n + 1, c, k, r, k, out, 0, answer, 4) == number && answer_is(first, second, STALL_CHAIN)
        && all_marked(out, 0, sizeof out);
}

/* A rate of 0 is 14 with its row and column, in a chain after 4, before the table, the lent places and the closed sets. */
static void zero_rates(void)
{
    static const uint32_t full[] = {0, 2, 4, 6}, all[] = {1, 2, 0, 2, 0, 1}, own_last[] = {1, 2, 0, 2, 0, 2};
    static const uint32_t case6[] = {0, 5}, both[] = {0, 0}, fourth[] = {1, 1, 1, 0, 1, 1}, three[] = {1, 0, 0, 1, 1, 0}, first[] = {0, 1, 1, 1, 1, 1};
    static const uint32_t whole[] = {256, 256, 65536, 65536, 16777216, 16777216};

    CHECK(chain_refused(14, 0, 1, 2, starts2, columns2, case6));
    CHECK(chain_refused(14, 0, 1, 2, starts2, columns2, both)); /* two closed sets too */
    CHECK(chain_refused(14, 1, 2, 3, full, all, fourth));
    CHECK(chain_refused(14, 0, 2, 3, full, all, three));
    CHECK(chain_refused(4, 2, 5, 3, full, own_last, first)); /* 4 in the last row, though a zero rate stands in the first */
    for (int i = 0; i < 6; i += 2) {
        CHECK(solve_fresh(2, starts2, 3, columns2, 2, whole + i, 2) == 0 && answer_is(8, 0, 0) && solved_in_place(2));
        CHECK(state_is(0, 2147483648u, -31, 2147483648u, -32) && state_is(1, 2147483648u, -31, 2147483648u, -32));
    }
}

/* The same in stored bytes, as soon as the rate's four bytes have been read. */
static void zero_rates_read(void)
{
    static const struct {
        uint32_t number;
        size_t first, second, length;
        uint8_t bytes[12];
    } files[] = {
        {14, 0, 1, 11, {2, 2, 0, 0, 0, 0, 1, 5, 0, 0, 0}}, /* case 6 */
        {14, 0, 1, 8, {3, 6, 0, 0, 0, 0, 7, 0}}, /* then a cut in the same row, then no next map */
        {14, 0, 1, 6, {2, 2, 0, 0, 0, 0}},
        {8, 0, 0, 5, {2, 2, 0, 0, 0}},
        {14, 0, 1, 11, {2, 2, 0, 0, 0, 0, 2, 5, 0, 0, 0}}, /* then a bad bit of a later row; before, one of its own row */
        {9, 0, 0, 10, {2, 3, 0, 0, 0, 0, 0, 0, 0, 0}},
        {9, 0, 2, 10, {2, 6, 0, 0, 0, 0, 5, 0, 0, 0}},
        {14, 1, 0, 12, {2, 2, 5, 0, 0, 0, 1, 0, 0, 0, 0, 9}}, /* then a byte left over */
    };

    for (size_t i = 0; i < COUNT(files); i++) {
        CHECK(read_fresh(files[i].bytes, files[i].length) == files[i].number);
        CHECK(answer_is(files[i].first, files[i].second, STALL_BYTES) && chain_unchanged());
        mark(); /* 14 comes before 5 as well */
        CHECK(stall_read(files[i].bytes, files[i].length, starts, 0, columns, 0, rates, 0, answer, 4) == files[i].number);
        CHECK(answer_is(files[i].first, files[i].second, STALL_BYTES) && chain_unchanged());
    }
    static const uint8_t whole[] = {2, 2, 0, 1, 0, 0, 1, 0, 0, 0, 1};
    CHECK(read_fresh(whole, sizeof whole) == 0 && answer_is(2, 2, 1) && rates[0] == 256 && rates[1] == 16777216);
}
