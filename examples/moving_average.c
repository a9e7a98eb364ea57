#include <stdint.h>
#define LENGTH 64
#define WINDOW 8

/* The mean of the last eight samples. */
void moving_average(const int16_t x[LENGTH], int16_t y[LENGTH]) {
    int32_t sum = 0;
    for (int i = 0; i < WINDOW; i++)
        sum += x[i];
    for (int i = WINDOW; i < LENGTH; i++) {
        sum += x[i] - x[i - WINDOW];
        y[i] = (int16_t)(sum >> 3);
    }
}
