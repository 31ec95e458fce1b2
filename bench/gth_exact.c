/* GTH on exact rationals (GMP): prints each share as a fraction. */
#include "chain.h"
#include <gmp.h>

static mpq_t a[MOST][MOST], pivot[MOST], t[MOST], weight[MOST], term, total;

int main(void) {
    read_chain();
    mpq_inits(term, total, (mpq_ptr)0);
    for (int i = 0; i < n; i++) {
        mpq_inits(pivot[i], t[i], weight[i], (mpq_ptr)0);
        for (int j = 0; j < n; j++) {
            mpq_init(a[i][j]);
            mpq_set_ui(a[i][j], rate[i][j], 1);
        }
    }
    for (int k = 0; k < n - 1; k++) {
        for (int j = k + 1; j < n; j++)
            mpq_add(pivot[k], pivot[k], a[k][j]);
        for (int j = k + 1; j < n; j++)
            mpq_div(t[j], a[k][j], pivot[k]);
        for (int i = k + 1; i < n; i++)
            for (int j = k + 1; j < n; j++)
                if (i != j) {
                    mpq_mul(term, a[i][k], t[j]);
                    mpq_add(a[i][j], a[i][j], term);
                }
    }
    mpq_set_ui(weight[n - 1], 1, 1);
    for (int k = n - 2; k >= 0; k--) {
        for (int j = k + 1; j < n; j++) {
            mpq_mul(term, weight[j], a[j][k]);
            mpq_add(weight[k], weight[k], term);
        }
        mpq_div(weight[k], weight[k], pivot[k]);
    }
    for (int i = 0; i < n; i++)
        mpq_add(total, total, weight[i]);
    for (int i = 0; i < order; i++) {
        mpq_set_ui(term, 0, 1);
        if (place[i] >= 0)
            mpq_div(term, weight[place[i]], total);
        gmp_printf("%d %Qd\n", i, term);
    }
    return 0;
}
