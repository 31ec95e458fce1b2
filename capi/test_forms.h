/* For test.c: stored form 2, read and written beside form 1. It uses the chain of case 2, and the parts of test_join.h. */

/* Case 2 in form 2; and two states whose first row marks a rate that it does not have. */
static const uint8_t short2[] = {0x82, 2, 2, 3, 0, 1, 1, 1, 0}, loose[] = {0x82, 0, 2, 1, 1, 1, 0};

static uint32_t write_part(int form, const struct part *p, size_t room, size_t places)
{
    mark();
    return (form == 1 ? stall_write : stall_write_short)(p->n, p->starts, p->starts_length, p->columns, p->columns_length, p->rates,
                                                         p->rates_length, out, room, answer, places);
}

static uint32_t read_into(const uint8_t *bytes, size_t length, size_t sn, size_t cn, size_t rn, size_t an)
{
    mark();
    return stall_read(bytes, length, starts, sn, columns, cn, rates, rn, answer, an);
}

/* The file of a chain, from FORMAT.md's words; gives the number of its bytes. */
static size_t model_file(int form, const struct part *p, uint8_t *file)
{
    size_t many = (p->n + 7) / 8, k = 0;
    file[k++] = (uint8_t)(form == 1 ? p->n : 128 + p->n);
    for (size_t i = 0; i < p->n; i++) {
        uint8_t *map = file + k, *marks = map + many;
        memset(map, 0, form == 1 ? many : 2 * many);
        k += form == 1 ? many : 2 * many;
        for (size_t e = p->starts[i]; e < p->starts[i + 1]; e++) {
            int is_short = form == 2 && p->rates[e] < 65536;
            map[p->columns[e] / 8] |= (uint8_t)(1 << p->columns[e] % 8);
            if (is_short)
                marks[p->columns[e] / 8] |= (uint8_t)(1 << p->columns[e] % 8);
            for (int b = 0; b < (is_short ? 2 : 4); b++)
                file[k++] = (uint8_t)(p->rates[e] >> 8 * b);
        }
    }
    return k;
}

/* A chain and its file of a form: written and read with just enough lent and with more, and refused by 5 with one place or byte less. */
static int goes_both_ways(int form, const struct part *p, const uint8_t *file, size_t length)
{
    const size_t n = p->n, many = p->columns_length;
    int so = write_part(form, p, length, 5) == 0 && answer_is(length, 0, 0) && file_is(file, length);
    so &= write_part(form, p, COUNT(out), 5) == 0 && answer_is(length, 0, 0) && file_is(file, length);
    so &= write_part(form, p, length - 1, 5) == 5 && answer_is(0, 0, STALL_CHAIN) && all_marked(out, 0, sizeof out);
    so &= read_fresh(file, length) == 0 && answer_is(n, many, (size_t)form) && chain_is(n, many, p->starts, p->columns, p->rates);
    so &= read_into(file, length, n + 1, many, many, 5) == 0 && answer_is(n, many, (size_t)form)
        && chain_is(n, many, p->starts, p->columns, p->rates);
    for (int i = many == 0 ? 2 : 0; i < 3; i++)
        so &= read_into(file, length, n + (i != 2), many - (i == 0), many - (i == 1), 5) == 5 && answer_is(0, 0, STALL_BYTES) && chain_unchanged();
    return so;
}

/* Chains with their files in both forms, written out by hand; each cut file is 8, and a byte more is 10. */
static void both_forms(void)
{
    static const uint8_t case1[] = {1, 0}, short1[] = {0x81, 0, 0}, apart[] = {2, 0, 0}, short_apart[] = {0x82, 0, 0, 0, 0};
    static const uint32_t none[10], limits[] = {65535, 65536};
    static const uint8_t limits1[] = {2, 2, 0xff, 0xff, 0, 0, 1, 0, 0, 1, 0}, limits2[] = {0x82, 2, 2, 0xff, 0xff, 1, 0, 0, 0, 1, 0};
    /* no two bytes of a rate alike; short and long ones in every order */
    static const uint32_t s3[] = {0, 2, 4, 5}, c3[] = {1, 2, 0, 2, 1}, r3[] = {0x0201, 0x06050403, 0x0a090807, 0x0c0b, 0xffffffff};
    static const uint8_t three1[] = {3, 6, 1, 2, 0, 0, 3, 4, 5, 6, 5, 7, 8, 9, 10, 11, 12, 0, 0, 2, 0xff, 0xff, 0xff, 0xff};
    static const uint8_t three2[] = {0x83, 6, 2, 1, 2, 3, 4, 5, 6, 5, 4, 7, 8, 9, 10, 11, 12, 2, 0, 0xff, 0xff, 0xff, 0xff};
    /* nine states, two bytes a map: a ring of rate 1,000, and a long move from 0 to 8 */
    static const uint32_t s9[] = {0, 2, 3, 4, 5, 6, 7, 8, 9, 10}, c9[] = {1, 8, 2, 3, 4, 5, 6, 7, 8, 0};
    static const uint32_t r9[] = {1000, 0x04030201, 1000, 1000, 1000, 1000, 1000, 1000, 1000, 1000};
    static const uint8_t nine1[] = {9, 2, 1, 0xe8, 3, 0, 0, 1, 2, 3, 4, 4, 0, 0xe8, 3, 0, 0, 8, 0, 0xe8, 3, 0, 0, 16, 0, 0xe8, 3, 0, 0,
                                    32, 0, 0xe8, 3, 0, 0, 64, 0, 0xe8, 3, 0, 0, 128, 0, 0xe8, 3, 0, 0, 0, 1, 0xe8, 3, 0, 0, 1, 0, 0xe8, 3, 0, 0};
    static const uint8_t nine2[] = {0x89, 2, 1, 2, 0, 0xe8, 3, 1, 2, 3, 4, 4, 0, 4, 0, 0xe8, 3, 8, 0, 8, 0, 0xe8, 3, 16, 0, 16, 0, 0xe8, 3,
                                    32, 0, 32, 0, 0xe8, 3, 64, 0, 64, 0, 0xe8, 3, 128, 0, 128, 0, 0xe8, 3, 0, 1, 0, 1, 0xe8, 3, 1, 0, 1, 0, 0xe8, 3};
    static const struct {
        struct part chain;
        const uint8_t *files[2];
        size_t lengths[2];
    } kept[] = {
        {{1, none, 2, none, 0, none, 0}, {case1, short1}, {2, 3}},
        {{2, none, 3, none, 0, none, 0}, {apart, short_apart}, {3, 5}}, /* two closed sets: stored all the same */
        {{2, starts2, 3, columns2, 2, rates2, 2}, {case2, short2}, {11, 9}},
        {{2, starts2, 3, columns2, 2, limits, 2}, {limits1, limits2}, {11, 11}},
        {{3, s3, 4, c3, 5, r3, 5}, {three1, three2}, {sizeof three1, sizeof three2}},
        {{9, s9, 10, c9, 10, r9, 10}, {nine1, nine2}, {59, 59}},
    };

    CHECK(sizeof nine1 == 59 && sizeof nine2 == 59);
    for (size_t i = 0; i < COUNT(kept); i++)
        for (int form = 1; form <= 2; form++) {
            const uint8_t *file = kept[i].files[form - 1];
            size_t length = kept[i].lengths[form - 1];
            uint8_t longer[64] = {0};
            CHECK(goes_both_ways(form, &kept[i].chain, file, length));
            CHECK(model_file(form, &kept[i].chain, longer) == length && memcmp(longer, file, length) == 0);
            CHECK(read_fresh(longer, length + 1) == 10 && answer_is(0, 0, STALL_BYTES) && chain_unchanged());
            for (size_t cut = 0; cut < length; cut++)
                CHECK(read_fresh(file, cut) == 8 && answer_is(0, 0, STALL_BYTES) && chain_unchanged());
        }
}

/* Numbers that look like chance, the same in every run. */
static uint32_t chance(uint32_t below)
{
    static uint64_t state = 8;
    state = state * 6364136223846793005u + 1442695040888963407u;
    return (uint32_t)((state >> 33) % below);
}

/* Chains of every order, of many or few moves, rates of every size and at the limit; their files are those of the model. */
static void seeded_forms(void)
{
    static uint32_t s[65], c[STALL_MAX_ENTRIES], r[STALL_MAX_ENTRIES];
    static uint8_t file[STALL_MAX_BYTES];
    size_t mixed = 0;

    for (uint32_t n = 1; n <= 64; n++)
        for (uint32_t kind = 0; kind < 3; kind++) {
            size_t k = 0, few = 0;
            for (uint32_t i = 0; i < n; i++) {
                for (uint32_t j = 0; j < n; j++)
                    if (j != i && chance(3) >= kind) {
                        uint32_t near = 65536u - 2 + chance(4), any = 1 + (chance(0x7fffffff) >> chance(31));
                        c[k] = j;
                        r[k] = chance(4) ? any : near;
                        few += r[k++] < 65536;
                    }
                s[i + 1] = (uint32_t)k;
            }
            struct part p = {n, s, n + 1, c, k, r, k};
            size_t maps = n * ((n + 7) / 8);
            mixed += few > 0 && few < k;
            CHECK(model_file(1, &p, file) == 1 + maps + 4 * k && goes_both_ways(1, &p, file, 1 + maps + 4 * k));
            CHECK(model_file(2, &p, file) == 1 + 2 * maps + 4 * k - 2 * few && goes_both_ways(2, &p, file, 1 + 2 * maps + 4 * k - 2 * few));
        }
    CHECK(mixed > 150);
}

/* Order 64 with every move: of rates 65,536 and more, the longest file of each form; of rates of 65,535 and less, the shortest of form 2. */
static void longest_forms(void)
{
    static uint32_t s[65], c[STALL_MAX_ENTRIES], r[STALL_MAX_ENTRIES];
    static uint8_t file[STALL_MAX_BYTES + 1];
    const struct part p = {64, s, 65, c, STALL_MAX_ENTRIES, r, STALL_MAX_ENTRIES};

    for (uint32_t low = 0; low < 2; low++) {
        size_t k = 0, length = low ? 1 + 1024 + 2 * 4032 : 17153;
        for (uint32_t i = 0; i < 64; i++) {
            for (uint32_t j = 0; j < 64; j++)
                if (j != i) {
                    c[k] = j;
                    r[k++] = low ? 65535 - 64 * i - j : 65536 + 16777259 * (i % 8) + 1021 * i + j;
                }
            s[i + 1] = (uint32_t)k;
        }
        CHECK(k == STALL_MAX_ENTRIES && model_file(1, &p, file) == 16641 && goes_both_ways(1, &p, file, 16641));
        CHECK(read_fresh(file, 16642) == 10 && answer_is(0, 0, STALL_BYTES) && chain_unchanged());
        CHECK(model_file(2, &p, file) == length && goes_both_ways(2, &p, file, length));
        CHECK(read_fresh(file, length + 1) == 10 && answer_is(0, 0, STALL_BYTES) && chain_unchanged());
    }
    CHECK(STALL_MAX_BYTES == 17153 && STALL_MAX_BYTES_FORM_1 == 16641);
}

/* The refusals of form 2 in the order met, and first bytes of no form. With nothing lent each is the same, since 5 comes last. */
static void form_refusals(void)
{
    static const struct {
        uint32_t number;
        size_t first, second, length;
        uint8_t bytes[12];
    } files[] = {
        {8, 0, 0, 1, {0x82}}, /* no map; no second map; 9 comes before that one */
        {8, 0, 0, 2, {0x82, 2}},
        {9, 0, 0, 2, {0x82, 3}},
        {9, 0, 2, 2, {0x82, 4}},
        {9, 0, 0, 3, {0x82, 1, 6}},
        {16, 0, 1, 3, {0x82, 0, 2}}, /* marks without their rates: at a column, the row itself, the order and beyond; the lowest */
        {16, 0, 0, 3, {0x82, 2, 1}},
        {16, 0, 2, 3, {0x82, 2, 6}},
        {16, 0, 7, 3, {0x82, 2, 0x82}},
        {16, 0, 1, 3, {0x82, 0, 6}},
        {16, 0, 0, 7, {0x82, 2, 3, 0, 0, 0, 0}}, /* before the rates of the row */
        {16, 0, 1, 7, {0x82, 2, 0, 3, 0, 0, 0}}, /* below 65,536 and not marked, with and without the rest */
        {16, 0, 1, 7, {0x82, 2, 0, 0xff, 0xff, 0, 0}},
        {16, 1, 0, 11, {0x82, 2, 2, 3, 0, 1, 0, 1, 0, 0, 0}},
        {14, 0, 1, 5, {0x82, 2, 2, 0, 0}}, /* zero, marked or not, comes before 16 */
        {14, 0, 1, 7, {0x82, 2, 0, 0, 0, 0, 0}},
        {14, 1, 0, 9, {0x82, 2, 2, 3, 0, 1, 1, 0, 0}},
        {8, 0, 0, 4, {0x82, 2, 2, 0}}, /* a cut within a rate comes before its value */
        {8, 0, 0, 6, {0x82, 2, 0, 0, 0, 0}},
        {8, 0, 0, 6, {0x82, 2, 0, 3, 0, 0}},
        {16, 0, 1, 8, {0x83, 6, 0, 5, 0, 0, 0, 7}}, /* the first rate comes before a cut in the second */
        {14, 0, 1, 8, {0x83, 6, 0, 0, 0, 0, 0, 7}},
        {14, 0, 1, 6, {0x83, 6, 6, 0, 0, 7}},
        {8, 0, 0, 8, {0x83, 6, 2, 5, 0, 7, 0, 0}},
        {16, 0, 2, 9, {0x83, 6, 2, 5, 0, 7, 0, 0, 0}}, /* the column, not the place */
        {14, 0, 2, 9, {0x83, 6, 2, 5, 0, 0, 0, 0, 0}},
        {9, 1, 1, 6, {0x82, 2, 2, 3, 0, 2}}, /* the second row */
        {16, 1, 1, 7, {0x82, 2, 2, 3, 0, 1, 2}},
        {16, 1, 1, 7, {0x82, 2, 2, 3, 0, 0, 2}},
        {8, 0, 0, 6, {0x82, 2, 2, 3, 0, 1}},
        {8, 0, 0, 4, {0x89, 2, 0, 2}}, /* two bytes a map: the second map cut in the middle, bits of its second byte */
        {8, 0, 0, 5, {0x89, 0, 1, 0, 1}},
        {16, 0, 8, 5, {0x89, 2, 0, 0, 1}},
        {16, 0, 9, 5, {0x89, 2, 1, 2, 3}},
        {16, 0, 15, 5, {0x89, 2, 1, 2, 0x81}},
        {9, 0, 9, 5, {0x89, 2, 2, 0, 2}},
        {16, 0, 8, 9, {0x89, 0, 1, 0, 0, 0xff, 0xff, 0, 0}},
        {14, 0, 8, 7, {0x89, 0, 1, 0, 1, 0, 0}},
        {10, 0, 0, 4, {0x81, 0, 0, 0}},
        {16, 0, 0, 3, {0x81, 0, 1}},
    };

    for (size_t i = 0; i < COUNT(files); i++)
        for (size_t lent = 0; lent < 2; lent++) {
            CHECK(read_into(files[i].bytes, files[i].length, 65 * lent, 4032 * lent, 4032 * lent, 5) == files[i].number);
            CHECK(answer_is(files[i].first, files[i].second, STALL_BYTES) && chain_unchanged());
        }
    for (int first = 0; first < 256; first++)
        for (size_t length = 1; length < 3; length++) {
            const uint8_t bytes[] = {(uint8_t)first, 0};
            int order = first < 128 ? first : first - 128, none = order == 0 || order > 64;
            uint32_t number = none ? 1 : first == 1 && length == 2 ? 0 : 8;
            CHECK(read_fresh(bytes, length) == number);
            CHECK(number == 0 ? answer_is(1, 0, 1) : answer_is(0, 0, STALL_BYTES) && chain_unchanged());
        }
}

/* Both writers on a chain with everything wrong, mended in one thing after the other: the refusals come in their order. */
static void write_refusals(void)
{
    static const uint32_t late[] = {1, 1, 2, 3}, own[] = {1, 1, 0}, zeros[] = {2, 0, 0};
    static const struct {
        uint32_t number;
        size_t first, second;
        struct part chain;
    } calls[] = {
        {1, 0, 0, {0, late, 4, own, 3, zeros, 2}},
        {1, 0, 0, {65, late, 4, own, 3, zeros, 2}},
        {1, 0, 0, {129, late, 4, own, 3, zeros, 2}},
        {2, 0, 0, {3, late, 4, own, 3, zeros, 2}},
        {3, 0, 0, {3, late, 4, own, 3, zeros, 3}},
        {4, 1, 1, {3, starts3, 4, own, 3, zeros, 3}},
        {14, 1, 2, {3, starts3, 4, columns3, 3, zeros, 3}},
        {5, 0, 0, {3, starts3, 4, columns3, 3, rates3, 3}},
    };

    for (size_t i = 0; i < COUNT(calls); i++)
        for (int form = 1; form <= 2; form++) {
            CHECK(write_part(form, &calls[i].chain, 0, 5) == calls[i].number);
            CHECK(answer_is(calls[i].first, calls[i].second, STALL_CHAIN) && all_marked(out, 0, sizeof out));
        }
    /* the size of form 1 is not enough for form 2 where the second maps take more than the short rates save */
    static const uint8_t apart[] = {0x82, 0, 0, 0, 0};
    static const uint32_t none[3];
    const struct part empty = {2, none, 3, none, 0, none, 0};
    CHECK(write_part(2, &empty, 3, 5) == 5 && answer_is(0, 0, STALL_CHAIN) && all_marked(out, 0, sizeof out));
    CHECK(write_part(2, &empty, 5, 5) == 0 && answer_is(5, 0, 0) && file_is(apart, 5));
}

/* An answer slice of two places or fewer keeps what it held, and all else is as ever; three are enough. */
static void form_short_answers(void)
{
    for (size_t length = 0; length <= 3; length++) {
        CHECK(read_into(short2, sizeof short2, 3, 2, 2, length) == 0 && chain_is(2, 2, starts2, columns2, rates2));
        CHECK(length < 3 ? all_marked(answer, 0, sizeof answer) : answer_is(2, 2, 2));
        CHECK(read_into(loose, sizeof loose, 3, 2, 2, length) == 16 && chain_unchanged());
        CHECK(length < 3 ? all_marked(answer, 0, sizeof answer) : answer_is(0, 1, STALL_BYTES));
        CHECK(write_part(2, &two, sizeof short2, length) == 0 && file_is(short2, sizeof short2));
        CHECK(length < 3 ? all_marked(answer, 0, sizeof answer) : answer_is(sizeof short2, 0, 0));
        CHECK(write_part(2, &two, sizeof short2 - 1, length) == 5 && all_marked(out, 0, sizeof out));
        CHECK(length < 3 ? all_marked(answer, 0, sizeof answer) : answer_is(0, 0, STALL_CHAIN));
    }
}
