#include <stdint.h>
#define N 40

/* Solves l * x = b for a lower triangular matrix, by forward substitution. Quotients are rounded towards 0. */
void trisolv(const int32_t l[N][N], const int32_t b[N], int32_t x[N]) {
    for (int i = 0; i < N; i++) {
        int32_t rest = b[i];
        for (int j = 0; j < i; j++)
            rest -= l[i][j] * x[j];
        x[i] = rest / l[i][i];
    }
}
