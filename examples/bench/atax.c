#include <stdint.h>
#define M 38
#define N 42

/* A matrix times a vector, and its transpose times the product: y = transpose(a) * (a * x). */
void atax(const int32_t a[M][N], const int32_t x[N], int32_t y[N]) {
    for (int j = 0; j < N; j++)
        y[j] = 0;
    for (int i = 0; i < M; i++) {
        int32_t sum = 0;
        for (int j = 0; j < N; j++)
            sum += a[i][j] * x[j];
        for (int j = 0; j < N; j++)
            y[j] += a[i][j] * sum;
    }
}
