/* GTH on MPFR numbers of 32 bits, in document 01's order, printed as the printing program prints. Each operation is rounded to the
 * nearest number, ties to even; built with -DROUND=MPFR_RNDD it is cut. */
#include "chain.h"
#include <gmp.h>
#include <mpfr.h>

#ifndef ROUND
#define ROUND MPFR_RNDN
#endif

static mpfr_t a[MOST][MOST], pivot[MOST], t[MOST], weight[MOST], term, total;

static void print_scaled(mpz_t m, mpfr_t x) {
    long e = mpfr_get_z_2exp(m, x);
    gmp_printf(" %Zd %ld", m, e);
}

int main(void) {
    mpz_t m;
    read_chain();
    mpfr_set_default_prec(32);
    mpz_init(m);
    mpfr_inits(term, total, (mpfr_ptr)0);
    for (int i = 0; i < n; i++) {
        mpfr_inits(pivot[i], t[i], weight[i], (mpfr_ptr)0);
        for (int j = 0; j < n; j++)
            mpfr_init_set_ui(a[i][j], rate[i][j], ROUND);
    }
    for (int k = 0; k < n - 1; k++) {
        mpfr_set_ui(pivot[k], 0, ROUND);
        for (int j = k + 1; j < n; j++)
            mpfr_add(pivot[k], pivot[k], a[k][j], ROUND);
        for (int j = k + 1; j < n; j++)
            mpfr_div(t[j], a[k][j], pivot[k], ROUND);
        for (int i = k + 1; i < n; i++)
            for (int j = k + 1; j < n; j++)
                if (i != j) {
                    mpfr_mul(term, a[i][k], t[j], ROUND);
                    mpfr_add(a[i][j], a[i][j], term, ROUND);
                }
    }
    mpfr_set_ui(weight[n - 1], 1, ROUND);
    for (int k = n - 2; k >= 0; k--) {
        mpfr_set_ui(weight[k], 0, ROUND);
        for (int j = k + 1; j < n; j++) {
            mpfr_mul(term, weight[j], a[j][k], ROUND);
            mpfr_add(weight[k], weight[k], term, ROUND);
        }
        mpfr_div(weight[k], weight[k], pivot[k], ROUND);
    }
    mpfr_set_ui(total, 0, ROUND);
    for (int i = 0; i < n; i++)
        mpfr_add(total, total, weight[i], ROUND);
    printf("states %d bound %d\n", order, (2 * n * n * n + 6 * n * n - 8 * n) / 3);
    for (int i = 0; i < order; i++) {
        if (place[i] < 0) {
            printf("%d 0 0 0 0\n", i);
            continue;
        }
        printf("%d", i);
        print_scaled(m, weight[place[i]]);
        mpfr_div(term, weight[place[i]], total, ROUND);
        print_scaled(m, term);
        putchar('\n');
    }
    return 0;
}
