/* Reads a sound stored chain of form 1 from standard input and keeps its one closed set, as a chain of its own. */
#include <stdint.h>
#include <stdio.h>
#include <stdlib.h>

#define MOST 64

static int order;                 /* of the whole chain */
static int n;                     /* the states of the closed set */
static int place[MOST];           /* of each state in the set, -1 for a state outside it */
static uint32_t rate[MOST][MOST]; /* between the states of the set, by their places; 0 where no entry stands */

static void stop(const char *why) {
    fputs(why, stderr);
    exit(1);
}

static int next_byte(void) {
    int c = getchar();
    if (c == EOF)
        stop("not a sound stored chain\n");
    return c;
}

static void read_rates(void) {
    order = next_byte();
    if (order < 1 || order > MOST)
        stop("not a sound stored chain\n");
    for (int i = 0; i < order; i++) {
        uint64_t map = 0;
        for (int b = 0; b < (order + 7) / 8; b++)
            map |= (uint64_t)next_byte() << (8 * b);
        for (int j = 0; j < order; j++)
            if (map >> j & 1)
                for (int b = 0; b < 4; b++)
                    rate[i][j] |= (uint32_t)next_byte() << (8 * b);
    }
}

/* The states that the lowest state of the one closed set reaches: the set. */
static uint64_t closed_set(void) {
    uint64_t reached[MOST], found = 0;
    for (int i = 0; i < order; i++) {
        reached[i] = (uint64_t)1 << i;
        for (int j = 0; j < order; j++)
            reached[i] |= (uint64_t)(rate[i][j] > 0) << j;
    }
    for (int k = 0; k < order; k++)
        for (int i = 0; i < order; i++)
            if (reached[i] >> k & 1)
                reached[i] |= reached[k];
    for (int i = 0; i < order; i++) {
        int closed = 1;
        for (int j = 0; j < order; j++)
            closed &= !(reached[i] >> j & 1) || reached[j] == reached[i];
        if (closed && found && found != reached[i])
            stop("two closed sets\n");
        if (closed)
            found = reached[i];
    }
    return found;
}

static void read_chain(void) {
    read_rates();
    uint64_t set = closed_set();
    for (int i = 0; i < order; i++)
        place[i] = set >> i & 1 ? n++ : -1;
    for (int i = 0; i < order; i++)
        for (int j = 0; j < order; j++) {
            uint32_t here = rate[i][j];
            rate[i][j] = 0;
            if (place[i] >= 0 && place[j] >= 0)
                rate[place[i]][place[j]] = here;
        }
}
