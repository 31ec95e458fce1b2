/* LU of the generator, its diagonal stored and each pivot got by subtraction. Compile with -DREAL=float or -DREAL=double. */
#include "chain.h"

static REAL a[MOST][MOST], weight[MOST];

int main(void) {
    read_chain();
    for (int i = 0; i < n; i++) {
        REAL s = 0;
        for (int j = 0; j < n; j++) {
            a[i][j] = (REAL)rate[i][j];
            s += a[i][j];
        }
        a[i][i] = -s;
    }
    for (int k = 0; k < n - 1; k++)
        for (int i = k + 1; i < n; i++) {
            REAL l = a[i][k] / a[k][k];
            for (int j = k + 1; j < n; j++)
                a[i][j] -= l * a[k][j];
        }
    weight[n - 1] = 1;
    for (int k = n - 2; k >= 0; k--) {
        REAL s = 0;
        for (int j = k + 1; j < n; j++)
            s += weight[j] * a[j][k];
        weight[k] = s / -a[k][k];
    }
    REAL total = 0;
    for (int i = 0; i < n; i++)
        total += weight[i];
    for (int i = 0; i < order; i++) {
        REAL w = place[i] < 0 ? 0 : weight[place[i]];
        printf("%d %.17g %.17g\n", i, (double)w, (double)(w / total));
    }
    return 0;
}
