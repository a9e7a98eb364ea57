#include <stdint.h>
#define LENGTH 32

/* Each inner sample becomes the median of itself and its two neighbours. */
void median(const int16_t x[LENGTH], int16_t y[LENGTH]) {
    int16_t a = x[0], b = x[1];
    for (int i = 2; i < LENGTH; i++) {
        int16_t c = x[i];
        int16_t less = a < b ? a : b;
        int16_t more = a < b ? b : a;
        int16_t least = more < c ? more : c;
        y[i - 1] = least > less ? least : less;
        a = b;
        b = c;
    }
}
