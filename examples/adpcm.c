#include <stdint.h>
#define LENGTH 64
#define STEPS 89

/* The ADPCM of the IMA: each sample becomes the four bits of a difference, in steps that grow with the signal. */
static const int16_t steps[STEPS] = {
    7, 8, 9, 10, 11, 12, 13, 14, 16, 17, 19, 21, 23, 25, 28,
    31, 34, 37, 41, 45, 50, 55, 60, 66, 73, 80, 88, 97, 107, 118,
    130, 143, 157, 173, 190, 209, 230, 253, 279, 307, 337, 371, 408, 449, 494,
    544, 598, 658, 724, 796, 876, 963, 1060, 1166, 1282, 1411, 1552, 1707, 1878, 2066,
    2272, 2499, 2749, 3024, 3327, 3660, 4026, 4428, 4871, 5358, 5894, 6484, 7132, 7845, 8630,
    9493, 10442, 11487, 12635, 13899, 15289, 16818, 18500, 20350, 22385, 24623, 27086, 29794, 32767,
};
static const int8_t change[8] = {-1, -1, -1, -1, 2, 4, 6, 8};

static int32_t clamped(int32_t x, int32_t least, int32_t most) {
    return x < least ? least : x > most ? most : x;
}

void adpcm(const int16_t sample[LENGTH], uint8_t code[LENGTH]) {
    int32_t predicted = 0;
    int32_t index = 0;
    for (int i = 0; i < LENGTH; i++) {
        int32_t step = steps[index];
        int32_t difference = sample[i] - predicted;
        int32_t is_less = difference < 0;
        int32_t rest = is_less ? -difference : difference;
        int32_t taken = step >> 3;
        int32_t bits = 0;
        if (rest >= step) {
            bits = 4;
            rest -= step;
            taken += step;
        }
        step = step >> 1;
        if (rest >= step) {
            bits += 2;
            rest -= step;
            taken += step;
        }
        step = step >> 1;
        if (rest >= step) {
            bits += 1;
            taken += step;
        }
        predicted = clamped(is_less ? predicted - taken : predicted + taken, -32768, 32767);
        index = clamped(index + change[bits], 0, STEPS - 1);
        code[i] = (uint8_t)(is_less ? bits + 8 : bits);
    }
}
