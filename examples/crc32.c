#include <stdint.h>
#define LENGTH 16

/* The cyclic redundancy check of IEEE 802.3, bit by bit. */
uint32_t crc32(const uint8_t message[LENGTH], int length) {
    uint32_t crc = 0xffffffffu;
    for (int i = 0; i < length; i++) {
        crc ^= message[i];
        for (int bit = 0; bit < 8; bit++)
            crc = crc & 1 ? (crc >> 1) ^ 0xedb88320u : crc >> 1;
    }
    return ~crc;
}
