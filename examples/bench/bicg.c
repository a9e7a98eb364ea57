#include <stdint.h>
#define N 42
#define M 38

/* The two products of the biconjugate gradient method: q = a * p, and s = transpose(a) * r. */
void bicg(const int32_t a[N][M], const int32_t p[M], const int32_t r[N], int32_t q[N], int32_t s[M]) {
    for (int j = 0; j < M; j++)
        s[j] = 0;
    for (int i = 0; i < N; i++) {
        int32_t sum = 0;
        int32_t factor = r[i];
        for (int j = 0; j < M; j++) {
            int32_t element = a[i][j];
            s[j] += factor * element;
            sum += element * p[j];
        }
        q[i] = sum;
    }
}
