#include <stdint.h>
#define NI 16
#define NJ 18
#define NK 22
#define NL 24

/* Two products of matrices: d = beta * d + (alpha * a * b) * c. */
void mm2(int32_t alpha, int32_t beta, const int32_t a[NI][NK], const int32_t b[NK][NJ], const int32_t c[NJ][NL], int32_t d[NI][NL]) {
    int32_t ab[NI][NJ];
    for (int i = 0; i < NI; i++) {
        for (int j = 0; j < NJ; j++) {
            int32_t sum = 0;
            for (int k = 0; k < NK; k++)
                sum += a[i][k] * b[k][j];
            ab[i][j] = alpha * sum;
        }
    }
    for (int i = 0; i < NI; i++) {
        for (int j = 0; j < NL; j++) {
            int32_t sum = beta * d[i][j];
            for (int k = 0; k < NJ; k++)
                sum += ab[i][k] * c[k][j];
            d[i][j] = sum;
        }
    }
}
