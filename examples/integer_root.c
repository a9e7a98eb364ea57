#include <stdint.h>

/* The square root of a number, rounded down, bit by bit. */
uint32_t integer_root(uint32_t x) {
    uint32_t rest = 0, root = 0;
    for (int i = 0; i < 16; i++) {
        uint32_t more = rest << 2 | x >> 30;
        uint32_t trial = root << 2 | 1;
        x = x << 2;
        if (more >= trial) {
            rest = more - trial;
            root = root << 1 | 1;
        } else {
            rest = more;
            root = root << 1;
        }
    }
    return root;
}
