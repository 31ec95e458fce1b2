/* For test.c: two chains joined. It uses the chains of cases 2 and 3. */

/* A chain in rows, as it is lent. */
struct part {
    size_t n;
    const uint32_t *starts;
    size_t starts_length;
    const uint32_t *columns;
    size_t columns_length;
    const uint32_t *rates;
    size_t rates_length;
};

static const struct part two = {2, starts2, 3, columns2, 2, rates2, 2}, ring = {3, starts3, 4, columns3, 3, rates3, 3};

/* Joins on memory that is marked before, with so many places lent. */
static uint32_t join_into(const struct part *a, const struct part *b, size_t sn, size_t cn, size_t rn, size_t an)
{
    mark();
    return stall_join(a->n, a->starts, a->starts_length, a->columns, a->columns_length, a->rates, a->rates_length, b->n, b->starts,
                      b->starts_length, b->columns, b->columns_length, b->rates, b->rates_length, starts, sn, columns, cn, rates, rn,
                      answer, an);
}

static uint32_t join_fresh(const struct part *a, const struct part *b)
{
    return join_into(a, b, COUNT(starts), COUNT(columns), COUNT(rates), COUNT(answer));
}

static int join_answer_is(size_t first, size_t second, size_t side, size_t part)
{
    return answer[0] == first && answer[1] == second && answer[2] == side && answer[3] == part && all_marked(answer + 4, 0, sizeof answer[4]);
}

/* Case 2 beside itself, through the same pointers, and beside case 3. The first is then solved and stored. */
static void joins(void)
{
    static const uint32_t s4[] = {0, 2, 4, 6, 8}, c4[] = {1, 2, 0, 3, 0, 3, 1, 2}, r4[] = {3, 3, 1, 3, 1, 3, 1, 1};
    static const uint32_t s6[] = {0, 2, 4, 6, 8, 10, 12}, c6[] = {1, 3, 2, 4, 0, 5, 0, 4, 1, 5, 2, 3};
    static const uint32_t r6[] = {2, 3, 4, 3, 8, 3, 1, 2, 1, 4, 1, 8};
    static const uint8_t file[] = {4, 6, 3, 0, 0, 0, 3, 0, 0, 0, 9, 1, 0, 0, 0, 3, 0, 0, 0, 9, 1, 0, 0, 0, 3, 0, 0, 0, 6, 1, 0, 0, 0, 1, 0, 0, 0};

    CHECK(join_fresh(&two, &two) == 0 && join_answer_is(8, 0, 0, 0) && chain_is(4, 8, s4, c4, r4));
    CHECK(join_fresh(&two, &ring) == 0 && join_answer_is(12, 0, 0, 0) && chain_is(6, 12, s6, c6, r6));
    CHECK(solve_fresh(4, s4, 5, c4, 8, r4, 8) == 0 && answer_is(64, 0, 0) && solved_in_place(4));
    /* 1/16, 3/16, 3/16 and 9/16, the first two rounded on the way; where rounding leaves them is known from the model in tests/. */
    CHECK(share_m[0] == 4294967295u && share_e[0] == -36 && share_m[1] == 3221225471u && share_e[1] == -34);
    CHECK(share_m[2] == 3221225472u && share_e[2] == -34 && share_m[3] == 2415919104u && share_e[3] == -32);
    CHECK(write_fresh(4, s4, 5, c4, 8, r4, 8) == 0 && answer_is(sizeof file, 0, 0) && memcmp(out, file, sizeof file) == 0);
}

/* One state beside a chain is that chain; chains without an answer are joined; 64 joint states, and as many entries as there can be. */
static void joint_edges(void)
{
    static const uint32_t none[65], s2[] = {0, 1, 2, 3, 4}, c2[] = {1, 0, 3, 2}, r2[] = {3, 1, 3, 1};
    static const uint32_t c2_other[] = {2, 3, 0, 1}, r2_other[] = {3, 3, 1, 1};
    static const struct part one = {1, none, 2, none, 0, none, 0}, apart = {2, none, 3, none, 0, none, 0};
    static uint32_t s[65], c[STALL_MAX_ENTRIES], r[STALL_MAX_ENTRIES];
    struct part full = {64, s, 65, c, STALL_MAX_ENTRIES, r, STALL_MAX_ENTRIES}, eight = {8, s, 9, c, 56, r, 56};
    size_t k = 0;

    CHECK(join_fresh(&one, &one) == 0 && join_answer_is(0, 0, 0, 0) && chain_is(1, 0, none, none, none));
    CHECK(join_fresh(&one, &ring) == 0 && join_answer_is(3, 0, 0, 0) && chain_is(3, 3, starts3, columns3, rates3));
    CHECK(join_fresh(&ring, &one) == 0 && join_answer_is(3, 0, 0, 0) && chain_is(3, 3, starts3, columns3, rates3));
    CHECK(join_fresh(&apart, &apart) == 0 && join_answer_is(0, 0, 0, 0) && chain_is(4, 0, none, none, none));
    CHECK(join_fresh(&apart, &two) == 0 && join_answer_is(4, 0, 0, 0) && chain_is(4, 4, s2, c2, r2));
    CHECK(join_fresh(&two, &apart) == 0 && join_answer_is(4, 0, 0, 0) && chain_is(4, 4, s2, c2_other, r2_other));
    for (uint32_t i = 0; i < 64; i++) {
        for (uint32_t j = 0; j < 64; j++)
            if (j != i) {
                c[k] = j;
                r[k++] = UINT32_MAX - i - 64 * j;
            }
        s[i + 1] = (uint32_t)k;
    }
    CHECK(join_fresh(&one, &full) == 0 && join_answer_is(STALL_MAX_ENTRIES, 0, 0, 0) && chain_is(64, STALL_MAX_ENTRIES, s, c, r));
    CHECK(join_fresh(&full, &one) == 0 && join_answer_is(STALL_MAX_ENTRIES, 0, 0, 0) && chain_is(64, STALL_MAX_ENTRIES, s, c, r));
    /* 8 beside 8, every move, each with a rate of its own: in row 8 * i + j those of the second to 8 * i + l, of the first to 8 * k + j. */
    k = 0;
    for (uint32_t i = 0; i < 8; i++) {
        for (uint32_t j = 0; j < 8; j++)
            if (j != i) {
                c[k] = j;
                r[k++] = 8 * i + j + 1;
            }
        s[i + 1] = (uint32_t)k;
    }
    CHECK(join_fresh(&eight, &eight) == 0 && join_answer_is(896, 0, 0, 0));
    k = 0;
    for (uint32_t x = 0; x < 64; x++) {
        CHECK(starts[x] == k);
        for (uint32_t y = 0; y < 64; y++) {
            if (x != y && x % 8 == y % 8) {
                CHECK(columns[k] == y && rates[k] == 8 * (x / 8) + y / 8 + 1);
                k++;
            } else if (x != y && x / 8 == y / 8) {
                CHECK(columns[k] == y && rates[k] == 8 * (x % 8) + y % 8 + 1);
                k++;
            }
        }
    }
    CHECK(starts[64] == 896 && k == 896 && all_marked(columns, 4 * 896, sizeof columns) && all_marked(rates, 4 * 896, sizeof rates));
}

/* Each refusal of a part, in the first and in the second: before all that is tried later, with no place lent. */
static void join_refusals(void)
{
    static const uint32_t none[65], late[] = {1, 1, 2}, own[] = {0, 1}, twice[] = {1, 1}, zeros[] = {0, 5};
    static const uint32_t full[] = {0, 2, 4, 6}, last[] = {1, 2, 0, 2, 0, 2}, all[] = {1, 2, 0, 2, 0, 1}, fourth[] = {1, 1, 1, 0, 1, 0};
    static const struct part large = {64, none, 65, none, 0, none, 0};
    static const struct {
        uint32_t number;
        size_t first, second;
        struct part chain;
    } broken[] = {
        {1, 0, 0, {0, none, 1, none, 0, none, 0}},
        {1, 0, 0, {65, late, 3, own, 2, zeros, 1}},
        {1, 0, 0, {SIZE_MAX, late, 3, own, 2, zeros, 1}},
        {2, 0, 0, {2, late, 3, own, 2, zeros, 1}},
        {3, 0, 0, {2, late, 3, own, 2, zeros, 2}},
        {3, 0, 0, {2, starts2, 2, own, 2, zeros, 2}},
        {4, 0, 0, {2, starts2, 3, own, 2, zeros, 2}},
        {4, 1, 1, {2, starts2, 3, twice, 2, zeros, 2}},
        {4, 2, 5, {3, full, 4, last, 6, fourth, 6}},
        {14, 0, 1, {2, starts2, 3, columns2, 2, zeros, 2}},
        {14, 1, 2, {3, full, 4, all, 6, fourth, 6}},
    };

    for (size_t i = 0; i < COUNT(broken); i++) {
        const struct part *bad = &broken[i].chain;
        for (size_t j = 0; j < 2 + COUNT(broken); j++) { /* with a sound second part, with one too large, with each broken one */
            const struct part *other = j == 0 ? &two : j == 1 ? &large : &broken[j - 2].chain;
            CHECK(join_into(bad, other, 0, 0, 0, COUNT(answer)) == broken[i].number && chain_unchanged());
            CHECK(join_answer_is(broken[i].first, broken[i].second, STALL_CHAIN, STALL_FIRST));
        }
        for (int j = 0; j < 4; j++) { /* after a sound first part, after one too large; with nothing lent, with all */
            const struct part *other = j % 2 ? &large : &two;
            CHECK((j < 2 ? join_into(other, bad, 0, 0, 0, COUNT(answer)) : join_fresh(other, bad)) == broken[i].number && chain_unchanged());
            CHECK(join_answer_is(broken[i].first, broken[i].second, STALL_CHAIN, STALL_SECOND));
        }
    }
}

/* 15 from 65 joint states on, before 5; then each slice one place short, and none. */
static void join_room(void)
{
    static const uint32_t none[65];
    static const size_t orders[][3] = {{8, 8, 0}, {64, 1, 0}, {1, 64, 0}, {2, 32, 0}, {7, 9, 0}, {5, 13, 15}, {13, 5, 15}, {2, 33, 15}, {64, 2, 15}, {64, 64, 15}};

    for (size_t i = 0; i < COUNT(orders); i++) {
        struct part a = {orders[i][0], none, orders[i][0] + 1, none, 0, none, 0}, b = {orders[i][1], none, orders[i][1] + 1, none, 0, none, 0};
        uint32_t large = (uint32_t)orders[i][2];
        CHECK(join_fresh(&a, &b) == large && join_answer_is(0, 0, STALL_CHAIN, STALL_JOINT));
        CHECK(large ? chain_unchanged() : chain_is(a.n * b.n, 0, none, none, none));
        CHECK(join_into(&a, &b, 0, 0, 0, COUNT(answer)) == (large ? 15 : 5) && join_answer_is(0, 0, STALL_CHAIN, STALL_JOINT) && chain_unchanged());
    }
    for (int i = 0; i < 4; i++) {
        CHECK(join_into(&two, &ring, 7 - (i == 0), 12 - (i == 1), 12 - (i == 2), COUNT(answer)) == (i < 3 ? 5 : 0));
        CHECK(i < 3 ? join_answer_is(0, 0, STALL_CHAIN, STALL_JOINT) && chain_unchanged() : join_answer_is(12, 0, 0, 0) && starts[6] == 12);
    }
}

/* An answer slice of three places or fewer keeps what it held; four are enough. */
static void join_short_answers(void)
{
    static const uint32_t none[65];
    static const struct part large = {64, none, 65, none, 0, none, 0}, empty = {0, none, 1, none, 0, none, 0};

    for (size_t length = 0; length < 4; length++) {
        CHECK(join_into(&two, &ring, 7, 12, 12, length) == 0 && all_marked(answer, 0, sizeof answer) && starts[6] == 12 && rates[11] == 8);
        CHECK(join_into(&two, &ring, 7, 12, 11, length) == 5 && all_marked(answer, 0, sizeof answer) && chain_unchanged());
        CHECK(join_into(&two, &large, 7, 12, 12, length) == 15 && all_marked(answer, 0, sizeof answer) && chain_unchanged());
        CHECK(join_into(&empty, &two, 7, 12, 12, length) == 1 && all_marked(answer, 0, sizeof answer) && chain_unchanged());
    }
    CHECK(join_into(&two, &ring, 7, 12, 12, 4) == 0 && join_answer_is(12, 0, 0, 0));
    CHECK(join_into(&two, &empty, 7, 12, 12, 4) == 1 && join_answer_is(0, 0, STALL_CHAIN, STALL_SECOND));
}
