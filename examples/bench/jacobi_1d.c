#include <stdint.h>
#define STEPS 20
#define N 30

/* Each inner element becomes the mean of itself and its two neighbours, from one array to the other and back. */
void jacobi_1d(int32_t a[N], int32_t b[N]) {
    for (int t = 0; t < STEPS; t++) {
        for (int i = 1; i < N - 1; i++)
            b[i] = (a[i - 1] + a[i] + a[i + 1]) / 3;
        for (int i = 1; i < N - 1; i++)
            a[i] = (b[i - 1] + b[i] + b[i + 1]) / 3;
    }
}
