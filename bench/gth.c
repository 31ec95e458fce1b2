/* GTH in hardware floating point: no subtraction, so each number keeps its relative accuracy until it underflows. */
#include "chain.h"

static double a[MOST][MOST], pivot[MOST], t[MOST], weight[MOST];

int main(void) {
    read_chain();
    for (int i = 0; i < n; i++)
        for (int j = 0; j < n; j++)
            a[i][j] = rate[i][j];
    for (int k = 0; k < n - 1; k++) {
        double s = 0;
        for (int j = k + 1; j < n; j++)
            s += a[k][j];
        for (int j = k + 1; j < n; j++)
            t[j] = a[k][j] / s;
        for (int i = k + 1; i < n; i++)
            for (int j = k + 1; j < n; j++)
                if (i != j)
                    a[i][j] += a[i][k] * t[j];
        pivot[k] = s;
    }
    weight[n - 1] = 1;
    for (int k = n - 2; k >= 0; k--) {
        double s = 0;
        for (int j = k + 1; j < n; j++)
            s += weight[j] * a[j][k];
        weight[k] = s / pivot[k];
    }
    double total = 0;
    for (int i = 0; i < n; i++)
        total += weight[i];
    for (int i = 0; i < order; i++) {
        double w = place[i] < 0 ? 0 : weight[place[i]];
        printf("%d %.17g %.17g\n", i, w, w / total);
    }
    return 0;
}
