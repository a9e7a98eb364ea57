#include <stdint.h>
#define N 40

/* The factors of a = l * u in place, without pivots. Elements have 8 bits behind the point; the ones on the diagonal of l are not stored. */
void lu(int32_t a[N][N]) {
    for (int i = 0; i < N; i++) {
        for (int j = 0; j < i; j++) {
            int32_t rest = a[i][j];
            for (int k = 0; k < j; k++)
                rest -= a[i][k] * a[k][j] >> 8;
            a[i][j] = rest * 256 / a[j][j];
        }
        for (int j = i; j < N; j++) {
            int32_t rest = a[i][j];
            for (int k = 0; k < i; k++)
                rest -= a[i][k] * a[k][j] >> 8;
            a[i][j] = rest;
        }
    }
}
