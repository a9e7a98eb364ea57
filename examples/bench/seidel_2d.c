#include <stdint.h>
#define STEPS 20
#define N 40

/* Each inner element in turn becomes the mean of the nine elements around it. The factor 7282 / 65536 stands for 1 / 9.
   The element to the left, which was stored just before, is kept in a variable. */
void seidel_2d(int32_t a[N][N]) {
    for (int t = 0; t < STEPS; t++) {
        for (int i = 1; i < N - 1; i++) {
            int32_t left = a[i][0];
            for (int j = 1; j < N - 1; j++) {
                int32_t above = a[i - 1][j - 1] + a[i - 1][j] + a[i - 1][j + 1];
                int32_t below = a[i + 1][j - 1] + a[i + 1][j] + a[i + 1][j + 1];
                left = (above + below + a[i][j] + a[i][j + 1] + left) * 7282 >> 16;
                a[i][j] = left;
            }
        }
    }
}
