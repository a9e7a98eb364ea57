#include <stdint.h>
#define LENGTH 64
#define BINS 16

/* How often each value occurs. */
void histogram(const uint8_t data[LENGTH], uint32_t count[BINS]) {
    for (int i = 0; i < BINS; i++)
        count[i] = 0;
    for (int i = 0; i < LENGTH; i++)
        count[data[i] & (BINS - 1)]++;
}
