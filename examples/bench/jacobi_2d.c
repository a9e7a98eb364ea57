#include <stdint.h>
#define STEPS 20
#define N 30

/* Each inner element becomes the mean of itself and its four neighbours, from one array to the other and back.
   The factor 13107 / 65536 stands for 1 / 5. */
void jacobi_2d(int32_t a[N][N], int32_t b[N][N]) {
    for (int t = 0; t < STEPS; t++) {
        for (int i = 1; i < N - 1; i++)
            for (int j = 1; j < N - 1; j++)
                b[i][j] = (a[i][j] + a[i][j - 1] + a[i][j + 1] + a[i + 1][j] + a[i - 1][j]) * 13107 >> 16;
        for (int i = 1; i < N - 1; i++)
            for (int j = 1; j < N - 1; j++)
                a[i][j] = (b[i][j] + b[i][j - 1] + b[i][j + 1] + b[i + 1][j] + b[i - 1][j]) * 13107 >> 16;
    }
}
