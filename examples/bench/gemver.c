#include <stdint.h>
#define N 40

/* Two updates of rank one, and two products: a += u * v + w * t, x += beta * transpose(a) * y + z, r = alpha * a * x.
   The products keep 8 bits behind the point. */
void gemver(int32_t alpha, int32_t beta, int32_t a[N][N], const int32_t u[N], const int32_t v[N], const int32_t w[N], const int32_t t[N],
            int32_t x[N], const int32_t y[N], const int32_t z[N], int32_t r[N]) {
    for (int i = 0; i < N; i++) {
        int32_t ui = u[i], wi = w[i];
        for (int j = 0; j < N; j++)
            a[i][j] += ui * v[j] + wi * t[j];
    }
    for (int i = 0; i < N; i++) {
        int32_t sum = 0;
        for (int j = 0; j < N; j++)
            sum += a[j][i] * y[j];
        x[i] += ((beta * sum) >> 8) + z[i];
    }
    for (int i = 0; i < N; i++) {
        int32_t sum = 0;
        for (int j = 0; j < N; j++)
            sum += a[i][j] * x[j] >> 8;
        r[i] = alpha * sum;
    }
}
