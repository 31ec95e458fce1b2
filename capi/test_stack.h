/* For test.c: how much of the stack each call uses. A call runs on a stack of its own, which is marked before; what is no longer marked
 * was used. The caller's frame with the arguments is counted, so the figures are a little too high and never too low. */
#include <ucontext.h>

static uint8_t stack[65536];
static uint32_t full_starts[65], full_columns[STALL_MAX_ENTRIES], full_rates[STALL_MAX_ENTRIES], full_table[3 * 64];
static uint8_t full_file[STALL_MAX_BYTES_FORM_1], full_short_file[STALL_MAX_BYTES];
static size_t full_short_length;

static size_t used_by(void (*calls)(void))
{
    static ucontext_t back, there;
    size_t unused = 0;
    memset(stack, MARK, sizeof stack);
    CHECK(getcontext(&there) == 0);
    there.uc_stack.ss_sp = stack;
    there.uc_stack.ss_size = sizeof stack;
    there.uc_link = &back;
    makecontext(&there, calls, 0);
    CHECK(swapcontext(&back, &there) == 0);
    while (unused < sizeof stack && stack[unused] == MARK)
        unused++;
    return sizeof stack - unused;
}

/* 64 states, every move with a rate of its own, in form 2 of two bytes and of four in turn, and a row of the table for each state. */
static void fill(void)
{
    size_t k = 0;
    for (uint32_t i = 0; i < 64; i++) {
        for (uint32_t j = 0; j < 64; j++)
            if (j != i) {
                full_columns[k] = j;
                full_rates[k++] = (64 * i + j + 1) << (j % 2 ? 16 : 0);
            }
        full_starts[i + 1] = (uint32_t)k;
        full_table[3 * i] = full_table[3 * i + 1] = i;
        full_table[3 * i + 2] = i % 16;
    }
    CHECK(write_fresh(64, full_starts, 65, full_columns, k, full_rates, k) == 0);
    memcpy(full_file, out, sizeof full_file);
    CHECK(write_short_fresh(64, full_starts, 65, full_columns, k, full_rates, k) == 0);
    full_short_length = answer[0];
    memcpy(full_short_file, out, sizeof full_short_file);
}

/* Each: the longest input, one with states outside the closed set or a small one, and refusals. */
static void solves(void)
{
    CHECK(solve_fresh(64, full_starts, 65, full_columns, COUNT(full_columns), full_rates, COUNT(full_rates)) == 0);
    CHECK(solve_fresh(3, starts3, 4, columns7, 3, rates7, 3) == 0);
    CHECK(solve_fresh(64, full_starts, 65, full_columns, COUNT(full_columns), full_rates, 0) == 2);
    CHECK(solve_fresh(2, full_table + 6, 3, columns2, 0, rates2, 0) == 3);
}

static void solves_groups(void)
{
    CHECK(groups_fresh(64, full_starts, 65, full_columns, COUNT(full_columns), full_rates, COUNT(full_rates), full_table, COUNT(full_table)) == 0);
    CHECK(groups_fresh(3, starts3, 4, columns7, 3, rates7, 3, table3, COUNT(table3)) == 0);
    CHECK(groups_fresh(64, full_starts, 65, full_columns, COUNT(full_columns), full_rates, COUNT(full_rates), full_table, 189) == 11);
    CHECK(groups_fresh(65, starts3, 4, columns3, 3, rates3, 3, table3, COUNT(table3)) == 1);
}

static void reads(void)
{
    CHECK(read_fresh(full_file, sizeof full_file) == 0);
    CHECK(read_fresh(case2, sizeof case2) == 0);
    CHECK(read_fresh(full_file, sizeof full_file - 1) == 8);
    CHECK(read_fresh(full_short_file, full_short_length) == 0);
    CHECK(read_fresh(short2, sizeof short2) == 0);
    CHECK(read_fresh(full_short_file, full_short_length - 1) == 8);
    CHECK(read_fresh(loose, sizeof loose) == 16);
}

static void writes(void)
{
    CHECK(write_fresh(64, full_starts, 65, full_columns, COUNT(full_columns), full_rates, COUNT(full_rates)) == 0);
    CHECK(write_fresh(2, starts2, 3, columns2, 2, rates2, 2) == 0);
    CHECK(write_fresh(2, starts2, 3, columns2, 2, rates2, 1) == 2);
}

static void writes_short(void)
{
    CHECK(write_short_fresh(64, full_starts, 65, full_columns, COUNT(full_columns), full_rates, COUNT(full_rates)) == 0);
    CHECK(write_short_fresh(2, starts2, 3, columns2, 2, rates2, 2) == 0);
    CHECK(write_short_fresh(2, starts2, 3, columns2, 2, rates2, 1) == 2);
}

static void joins_parts(void)
{
    static const uint32_t starts8[] = {0, 1, 2, 3, 4, 5, 6, 7, 8}, columns8[] = {1, 2, 3, 4, 5, 6, 7, 0}, rates8[] = {1, 2, 3, 4, 5, 6, 7, 8};
    mark();
    CHECK(stall_join(8, starts8, 9, columns8, 8, rates8, 8, 8, starts8, 9, columns8, 8, rates8, 8, starts, COUNT(starts), columns,
                     COUNT(columns), rates, COUNT(rates), answer, COUNT(answer)) == 0);
    CHECK(stall_join(64, full_starts, 65, full_columns, COUNT(full_columns), full_rates, COUNT(full_rates), 8, starts8, 9, columns8, 8, rates8,
                     8, starts, COUNT(starts), columns, COUNT(columns), rates, COUNT(rates), answer, COUNT(answer)) == 15);
}

static void nothing(void)
{
}

/* 3000 bytes, to see that the measure tells them. */
static void known(void)
{
    volatile uint8_t bytes[3000];
    for (size_t i = 0; i < sizeof bytes; i++)
        bytes[i] = 0;
}

static void stack_used(void)
{
    static const struct {
        const char *name;
        void (*calls)(void);
        size_t bound;
    } measured[] = {
        {"stall_solve", solves, STALL_SOLVE_STACK},
        {"stall_solve_groups", solves_groups, STALL_SOLVE_GROUPS_STACK},
        {"stall_read", reads, STALL_READ_STACK},
        {"stall_write", writes, STALL_WRITE_STACK},
        {"stall_write_short", writes_short, STALL_WRITE_SHORT_STACK},
        {"stall_join", joins_parts, STALL_JOIN_STACK},
    };
    size_t least;

    fill();
    least = used_by(nothing);
    CHECK(least < 256);
    CHECK(used_by(known) >= 3000 && used_by(known) < 3000 + 256 + least);
    for (size_t i = 0; i < COUNT(measured); i++) {
        size_t used = used_by(measured[i].calls);
        printf("%s: %zu bytes of the stack\n", measured[i].name, used);
        CHECK(used > least && used < measured[i].bound);
    }
}
