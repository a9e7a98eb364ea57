#include <stdint.h>
#define N 8

/* The mean of fixed-point numbers with 16 bits behind the point, each with its weight. */
int32_t weighted_mean(const int32_t value[N], const int32_t weight[N]) {
    int64_t sum = 0;
    int64_t total = 0;
    for (int i = 0; i < N; i++) {
        sum += (int64_t)value[i] * weight[i];
        total += weight[i];
    }
    return total == 0 ? 0 : (int32_t)(sum / total);
}
