#include <stdint.h>
#define N 8

/* The product of two matrices. */
void matmul(const int32_t a[N][N], const int32_t b[N][N], int32_t c[N][N]) {
    for (int i = 0; i < N; i++) {
        for (int j = 0; j < N; j++) {
            int32_t acc = 0;
            for (int k = 0; k < N; k++)
                acc += a[i][k] * b[k][j];
            c[i][j] = acc;
        }
    }
}
