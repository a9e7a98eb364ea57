#include <stdint.h>
#define TAPS 8
#define LENGTH 32

/* A filter with a finite impulse response: each output is the sum of the last inputs, each times its coefficient. */
static const int16_t coefficient[TAPS] = {-3, 12, 37, 68, 68, 37, 12, -3};

void fir(const int16_t x[LENGTH], int32_t y[LENGTH]) {
    for (int n = TAPS - 1; n < LENGTH; n++) {
        int32_t sum = 0;
        for (int k = 0; k < TAPS; k++)
            sum += coefficient[k] * x[n - k];
        y[n] = sum;
    }
}
