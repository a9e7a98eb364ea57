#include <stdint.h>
#define LENGTH 16

/* The 4-bit S-box of the cipher PRESENT, on both halves of each byte. */
static const uint8_t box[16] = {12, 5, 6, 11, 9, 0, 10, 13, 3, 14, 15, 8, 4, 7, 1, 2};

void sbox(uint8_t block[LENGTH]) {
    for (int i = 0; i < LENGTH; i++) {
        uint8_t byte = block[i];
        block[i] = (uint8_t)(box[byte >> 4] << 4 | box[byte & 15]);
    }
}
