#include <stdint.h>
#define WORDS 32

/* A small processor: an instruction has an operation, two registers and a constant, and each takes its turn. Register 0 is 0.
   The program sorts the words of the memory by insertion. The result is the number of instructions that were done. */
#define HALT 0
#define SET (1 << 24)
#define ADD (2 << 24)
#define SUBTRACT (3 << 24)
#define LOAD (4 << 24)
#define STORE (5 << 24)
#define IF_LESS (6 << 24)
#define JUMP (7 << 24)
#define R1 (1 << 20)
#define R2 (2 << 20)
#define R3 (3 << 20)
#define R4 (4 << 20)
#define R5 (5 << 20)
#define R6 (6 << 20)
#define BY1 (1 << 16)
#define BY2 (2 << 16)
#define BY3 (3 << 16)
#define BY4 (4 << 16)
#define BY5 (5 << 16)
#define BY6 (6 << 16)

static const int32_t program[] = {
    SET | R1 | 1,                 /*  0: i = 1 */
    SET | R6 | WORDS,             /*  1 */
    IF_LESS | R1 | BY6 | 4,       /*  2: while i < WORDS */
    HALT,                         /*  3 */
    LOAD | R2 | BY1 | 0,          /*  4: value = memory[i] */
    ADD | R3 | BY1 | 0,           /*  5: j = i */
    SET | R5 | 1,                 /*  6 */
    IF_LESS | R3 | BY5 | 13,      /*  7: while j >= 1 */
    LOAD | R4 | BY3 | 0xffff,     /*  8: and value < memory[j - 1] */
    IF_LESS | R2 | BY4 | 11,      /*  9 */
    JUMP | 13,                    /* 10 */
    STORE | R4 | BY3 | 0,         /* 11: memory[j] = memory[j - 1] */
    JUMP | 16,                    /* 12 */
    STORE | R2 | BY3 | 0,         /* 13: memory[j] = value */
    ADD | R1 | BY1 | 1,           /* 14: i = i + 1 */
    JUMP | 2,                     /* 15 */
    ADD | R3 | BY3 | 0xffff,      /* 16: j = j - 1 */
    JUMP | 7,                     /* 17 */
};

int32_t processor(int32_t memory[WORDS]) {
    int32_t r[16] = {0};
    int32_t count = 0;
    int32_t at = 0;
    while (1) {
        int32_t word = program[at & 31];
        int32_t target = word >> 20 & 15;
        int32_t left = r[target], right = r[word >> 16 & 15];
        int32_t constant = (int16_t)(word & 0xffff);
        count++;
        at++;
        switch (word >> 24) {
        case 1:
            r[target] = constant;
            break;
        case 2:
            r[target] = right + constant;
            break;
        case 3:
            r[target] = right - constant;
            break;
        case 4:
            r[target] = memory[right + constant & WORDS - 1];
            break;
        case 5:
            memory[right + constant & WORDS - 1] = left;
            break;
        case 6:
            if (left < right)
                at = constant;
            break;
        case 7:
            at = constant;
            break;
        default:
            return count;
        }
    }
}
