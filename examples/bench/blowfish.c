#include <stdint.h>
#define ROUNDS 16
#define SUBKEYS 18
#define KEY 8
#define BLOCKS 8

/* The cipher Blowfish: the subkeys and the boxes are made from the key, and then each block of two words is enciphered.
   p and s come in with the digits of pi. */
static void encipher(const uint32_t p[SUBKEYS], const uint32_t s[4][256], uint32_t half[2]) {
    uint32_t left = half[0], right = half[1];
    for (int i = 0; i < ROUNDS; i++) {
        left ^= p[i];
        uint32_t mixed = ((s[0][left >> 24] + s[1][left >> 16 & 255]) ^ s[2][left >> 8 & 255]) + s[3][left & 255];
        uint32_t next = right ^ mixed;
        right = left;
        left = next;
    }
    half[0] = right ^ p[ROUNDS + 1];
    half[1] = left ^ p[ROUNDS];
}

void blowfish(uint32_t p[SUBKEYS], uint32_t s[4][256], const uint8_t key[KEY], uint32_t text[BLOCKS][2]) {
    int at = 0;
    for (int i = 0; i < SUBKEYS; i++) {
        uint32_t word = 0;
        for (int k = 0; k < 4; k++) {
            word = word << 8 | key[at];
            at = at == KEY - 1 ? 0 : at + 1;
        }
        p[i] ^= word;
    }

    /* Each of the 521 calls replaces the next two words of p, and then of s; after them the blocks follow. */
    uint32_t half[2] = {0, 0};
    for (int n = 0; n < 521 + BLOCKS; n++) {
        if (n >= 521) {
            half[0] = text[n - 521][0];
            half[1] = text[n - 521][1];
        }
        encipher(p, s, half);
        if (n < 9) {
            p[2 * n] = half[0];
            p[2 * n + 1] = half[1];
        } else if (n < 521) {
            int word = 2 * (n - 9);
            s[word >> 8][word & 255] = half[0];
            s[word >> 8][(word & 255) + 1] = half[1];
        } else {
            text[n - 521][0] = half[0];
            text[n - 521][1] = half[1];
        }
    }
}
