/* Finishes two rows of reds over two rows of blues as one block, measures it, and lets a chooser decide between two candidates. */
#include "bc7.h"
#include <stdio.h>

/* An endpoint of three stored channels. */
static uint32_t colour(uint32_t red, uint32_t green, uint32_t blue) {
    return red + 256 * green + 65536 * blue;
}

/* Prints an answer of 64 bits and the block that it is about. */
static void show(const char *name, uint64_t answer, const uint8_t *block) {
    printf("%s: refusal %u, error %u, block", name, (unsigned)BC7_REFUSAL(answer), (unsigned)BC7_ERROR(answer));
    for (int i = 0; i < BC7_BLOCK; i++) printf(" %02x", block[i]);
    printf("\n");
}

int main(void) {
    uint8_t pixels[BC7_PIXELS] = {0}, block[BC7_BLOCK], chooser[BC7_CHOOSER];
    for (int i = 0; i < 16; i++) pixels[3 * i + (i < 8 ? 0 : 2)] = (uint8_t)(101 + 17 * (i % 4)); /* red above, blue below */

    /* In partition 13 the lower two rows are subset 1. Channels have 6 bits in mode 1 and 7 in mode 3. The p-bits are free. */
    uint64_t finished = bc7_finish(pixels, sizeof pixels, 1, 13, colour(25, 0, 0), colour(38, 0, 0), colour(0, 0, 25),
                                   colour(0, 0, 38), 0, 1, block, sizeof block);
    show("finished", finished, block);
    show("measured", bc7_measure(block, sizeof block, pixels, sizeof pixels), block);

    uint32_t started = bc7_start(pixels, sizeof pixels, chooser, sizeof chooser);
    uint32_t first = bc7_offer(chooser, sizeof chooser, 1, 13, colour(25, 0, 0), colour(38, 0, 0), colour(0, 0, 25),
                               colour(0, 0, 38), 0, 1);
    uint32_t second = bc7_offer(chooser, sizeof chooser, 3, 13, colour(50, 0, 0), colour(76, 0, 0), colour(0, 0, 50),
                                colour(0, 0, 76), 0, 1);
    printf("started and offered: refusals %u %u %u\n", (unsigned)started, (unsigned)first, (unsigned)second);
    uint64_t taken = bc7_take(chooser, sizeof chooser, block, sizeof block);
    show("taken", taken, block);
    return BC7_REFUSAL(finished) || started || first || second || BC7_REFUSAL(taken);
}
