#include <stdint.h>
#define N 30

/* The sum of two scaled products: y = alpha * a * x + beta * b * x. */
void gesummv(int32_t alpha, int32_t beta, const int32_t a[N][N], const int32_t b[N][N], const int32_t x[N], int32_t y[N]) {
    for (int i = 0; i < N; i++) {
        int32_t left = 0, right = 0;
        for (int j = 0; j < N; j++) {
            left += a[i][j] * x[j];
            right += b[i][j] * x[j];
        }
        y[i] = alpha * left + beta * right;
    }
}
