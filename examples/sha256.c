#include <stdint.h>

/* The hash SHA-256 (FIPS 180-4) of a message of one block, with its padding. */
static const uint32_t constant[64] = {
    0x428a2f98, 0x71374491, 0xb5c0fbcf, 0xe9b5dba5, 0x3956c25b, 0x59f111f1, 0x923f82a4, 0xab1c5ed5,
    0xd807aa98, 0x12835b01, 0x243185be, 0x550c7dc3, 0x72be5d74, 0x80deb1fe, 0x9bdc06a7, 0xc19bf174,
    0xe49b69c1, 0xefbe4786, 0x0fc19dc6, 0x240ca1cc, 0x2de92c6f, 0x4a7484aa, 0x5cb0a9dc, 0x76f988da,
    0x983e5152, 0xa831c66d, 0xb00327c8, 0xbf597fc7, 0xc6e00bf3, 0xd5a79147, 0x06ca6351, 0x14292967,
    0x27b70a85, 0x2e1b2138, 0x4d2c6dfc, 0x53380d13, 0x650a7354, 0x766a0abb, 0x81c2c92e, 0x92722c85,
    0xa2bfe8a1, 0xa81a664b, 0xc24b8b70, 0xc76c51a3, 0xd192e819, 0xd6990624, 0xf40e3585, 0x106aa070,
    0x19a4c116, 0x1e376c08, 0x2748774c, 0x34b0bcb5, 0x391c0cb3, 0x4ed8aa4a, 0x5b9cca4f, 0x682e6ff3,
    0x748f82ee, 0x78a5636f, 0x84c87814, 0x8cc70208, 0x90befffa, 0xa4506ceb, 0xbef9a3f7, 0xc67178f2,
};
static const uint32_t initial[8] = {
    0x6a09e667, 0xbb67ae85, 0x3c6ef372, 0xa54ff53a, 0x510e527f, 0x9b05688c, 0x1f83d9ab, 0x5be0cd19,
};

static uint32_t turned(uint32_t x, int n) {
    return x >> n | x << (32 - n);
}

void sha256(const uint32_t message[16], uint32_t hash[8]) {
    uint32_t last[16];
    for (int i = 0; i < 16; i++)
        last[i] = message[i];
    uint32_t a = initial[0], b = initial[1], c = initial[2], d = initial[3];
    uint32_t e = initial[4], f = initial[5], g = initial[6], h = initial[7];
    for (int i = 0; i < 64; i++) {
        uint32_t word = last[i & 15];
        uint32_t one = h + (turned(e, 6) ^ turned(e, 11) ^ turned(e, 25)) + (e & f ^ ~e & g) + constant[i] + word;
        uint32_t two = (turned(a, 2) ^ turned(a, 13) ^ turned(a, 22)) + (a & b ^ a & c ^ b & c);
        h = g;
        g = f;
        f = e;
        e = d + one;
        d = c;
        c = b;
        b = a;
        a = one + two;

        /* The word of 16 rounds later. */
        uint32_t x = last[i + 1 & 15], y = last[i + 14 & 15];
        last[i & 15] = word + (turned(x, 7) ^ turned(x, 18) ^ x >> 3) + last[i + 9 & 15] + (turned(y, 17) ^ turned(y, 19) ^ y >> 10);
    }
    hash[0] = initial[0] + a;
    hash[1] = initial[1] + b;
    hash[2] = initial[2] + c;
    hash[3] = initial[3] + d;
    hash[4] = initial[4] + e;
    hash[5] = initial[5] + f;
    hash[6] = initial[6] + g;
    hash[7] = initial[7] + h;
}
