#include <stdint.h>
#define STEPS 20
#define N 10

/* The heat equation on a cube, from one array to the other: an eighth of the second difference along each axis is added. */
static void step(const int32_t from[N][N][N], int32_t to[N][N][N]) {
    for (int i = 1; i < N - 1; i++)
        for (int j = 1; j < N - 1; j++)
            for (int k = 1; k < N - 1; k++) {
                int32_t here = from[i][j][k];
                int32_t x = from[i + 1][j][k] - 2 * here + from[i - 1][j][k];
                int32_t y = from[i][j + 1][k] - 2 * here + from[i][j - 1][k];
                int32_t z = from[i][j][k + 1] - 2 * here + from[i][j][k - 1];
                to[i][j][k] = here + (x >> 3) + (y >> 3) + (z >> 3);
            }
}

void heat_3d(int32_t a[N][N][N], int32_t b[N][N][N]) {
    for (int t = 0; t < STEPS; t++) {
        step(a, b);
        step(b, a);
    }
}
