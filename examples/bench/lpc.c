#include <stdint.h>
#define LENGTH 160
#define ORDER 8

/* Linear prediction of a frame of speech: the autocorrelation of the samples, and the reflection coefficients by Schur's recursion,
   with 15 bits behind the point. */
static int32_t magnitude(int32_t x) {
    return x < 0 ? -x : x;
}

/* The quotient of two numbers, 0 <= a < b < 32768, with 15 bits behind the point. */
static int32_t fraction(int32_t a, int32_t b) {
    int32_t quotient = 0;
    for (int i = 0; i < 15; i++) {
        int32_t doubled = a + a;
        int32_t fits = doubled >= b;
        a = fits ? doubled - b : doubled;
        quotient = quotient + quotient + fits;
    }
    return quotient;
}

void lpc(const int16_t sample[LENGTH], int16_t reflection[ORDER]) {
    int32_t correlation[ORDER + 1];
    for (int lag = 0; lag <= ORDER; lag++) {
        int32_t sum = 0;
        for (int i = lag; i < LENGTH; i++)
            sum += sample[i] * sample[i - lag];
        correlation[lag] = sum;
    }

    /* All are scaled so that the first, which is the greatest, has 15 bits. */
    int32_t first = correlation[0];
    int32_t shift = 0;
    while (first > 32767) {
        first = first >> 1;
        shift++;
    }
    int32_t p[ORDER + 1], k[ORDER + 1];
    for (int i = 0; i <= ORDER; i++) {
        int32_t scaled = correlation[i] >> shift;
        p[i] = scaled;
        k[i] = scaled;
    }

    for (int n = 0; n < ORDER; n++)
        reflection[n] = 0;
    for (int n = 0; n < ORDER; n++) {
        int32_t size = magnitude(p[1]);
        if (p[0] <= size)
            return;
        int32_t r = fraction(size, p[0]);
        if (p[1] > 0)
            r = -r;
        reflection[n] = (int16_t)r;
        p[0] += p[1] * r >> 15;
        for (int m = 1; m < ORDER - n; m++) {
            int32_t next = p[m + 1], other = k[m];
            p[m] = next + (other * r >> 15);
            k[m] = other + (next * r >> 15);
        }
    }
}
