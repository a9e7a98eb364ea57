#include <stdint.h>
#define NI 20
#define NJ 25
#define NK 30

/* The sum of a scaled matrix and a scaled product: c = beta * c + alpha * a * b. */
void gemm(int32_t alpha, int32_t beta, const int32_t a[NI][NK], const int32_t b[NK][NJ], int32_t c[NI][NJ]) {
    for (int i = 0; i < NI; i++) {
        for (int j = 0; j < NJ; j++) {
            int32_t sum = 0;
            for (int k = 0; k < NK; k++)
                sum += a[i][k] * b[k][j];
            c[i][j] = beta * c[i][j] + alpha * sum;
        }
    }
}
