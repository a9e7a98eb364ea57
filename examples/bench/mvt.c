#include <stdint.h>
#define N 40

/* A matrix and its transpose times a vector each: u += a * y, and v += transpose(a) * z. */
void mvt(const int32_t a[N][N], const int32_t y[N], const int32_t z[N], int32_t u[N], int32_t v[N]) {
    for (int i = 0; i < N; i++) {
        int32_t sum = u[i];
        for (int j = 0; j < N; j++)
            sum += a[i][j] * y[j];
        u[i] = sum;
    }
    for (int i = 0; i < N; i++) {
        int32_t sum = v[i];
        for (int j = 0; j < N; j++)
            sum += a[j][i] * z[j];
        v[i] = sum;
    }
}
