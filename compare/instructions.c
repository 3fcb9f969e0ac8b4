/* Makes one kind of call many times on drawn numbers: instructions MODE CALL COUNT, with CALL 0 or 1 for bc7_finish at fixed or free
   p-bits, 2 for bc7_pack and 3 for bc7_offer. See instructions. */
#include "bc7.h"
#include <stdint.h>
#include <stdio.h>
#include <stdlib.h>

/* Four of the numbers that a call is handed, and its p-bits. */
struct drawn {
    uint32_t partition, ends[4], p;
};

/* The next drawn number. */
static uint32_t next(void) {
    static uint64_t state = 88172645463325252u;
    state ^= state << 13;
    state ^= state >> 7;
    state ^= state << 17;
    return (uint32_t)(state >> 32);
}

/* A candidate of a mode. */
static struct drawn candidate(uint32_t mode) {
    uint32_t channel = mode == 1 ? 63 : 127;
    struct drawn c = {next() % 64, {0, 0, 0, 0}, next() % (mode == 1 ? 4 : 16)};
    for (int k = 0; k < 4; k++)
        c.ends[k] = (next() & channel) | (next() & channel) << 8 | (next() & channel) << 16;
    return c;
}

/* Sixteen indices of a mode. */
static uint64_t indices(uint32_t mode) {
    uint64_t out = 0;
    for (int i = 0; i < 16; i++)
        out |= (uint64_t)(next() % (mode == 1 ? 8 : 4)) << (4 * i);
    return out;
}

int main(int count, char **words) {
    if (count != 4)
        return 2;
    uint32_t mode = (uint32_t)atoi(words[1]), call = (uint32_t)atoi(words[2]), sum = 0;
    for (int n = atoi(words[3]); n > 0; n--) {
        uint8_t pixels[48], block[16] = {0}, chooser[68];
        for (int i = 0; i < 48; i++)
            pixels[i] = (uint8_t)next();
        struct drawn c = candidate(mode);
        const uint32_t *e = c.ends;
        if (call == 2) {
            sum += bc7_pack(mode, c.partition, e[0], e[1], e[2], e[3], c.p, indices(mode), block, 16);
        } else if (call == 3) {
            bc7_start(pixels, 48, chooser, 68);
            sum += bc7_offer(chooser, 68, mode, c.partition, e[0], e[1], e[2], e[3], c.p, (uint32_t)n % 2);
        } else {
            sum += (uint32_t)bc7_finish(pixels, 48, mode, c.partition, e[0], e[1], e[2], e[3], c.p, call, block, 16);
        }
    }
    printf("%u\n", sum);
    return 0;
}
