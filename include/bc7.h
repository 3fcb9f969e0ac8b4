/* BC7 blocks of modes 1 and 3: the calls of libbc7_c.a, which `rt lib` in crates/bc7_c proves and writes.

   A part is a pointer and its length in bytes, with as many bytes behind it; a part that a call writes must not overlap another, and
   one of length 0 may be NULL. Any length and any number is answered: by 0, or by the first of these refusals that applies, and then
   nothing is written but what bc7_start says.

     1  the pixel part is not 48 bytes long (red, green, blue of pixels 0 to 15, row by row)
     2  the block part is not 16 bytes long
     3  the mode is neither 1 nor 3
     4  the partition is above 63
     5  a channel is above 63 in mode 1 or above 127 in mode 3
     6  fixed p-bits are above 3 in mode 1 or above 15 in mode 3
     7  an index is above 7 in mode 1 or above 3 in mode 3
     8  byte 0 of the block to be read is zero
     9  the block to be read has mode 0, 2, 4, 5, 6 or 7
   255  the chooser part is not 68 bytes long, or the field part not 31; this is checked first

   A candidate is a mode, a partition, four endpoints (e0 and e1 of subset 0, e2 and e3 of subset 1), p-bits and whether they are free
   (0: fixed, any other number: free, and p is not looked at). Fixed p-bits: in mode 1 bit s belongs to subset s, in mode 3 bit k to
   endpoint k. An endpoint is red + 256 * green + 65536 * blue; a number of 2^24 or more has a channel out of range.

   An answer of 64 bits has the refusal above and the error in the low 32 bits: BC7_REFUSAL and BC7_ERROR take them apart. The error is
   the sum, over the sixteen pixels, of the squared differences in red, green and blue, and 0 after a refusal. */
#ifndef BC7_H
#define BC7_H

#include <stddef.h>
#include <stdint.h>

#define BC7_PIXELS 48  /* the bytes of sixteen pixels */
#define BC7_BLOCK 16   /* of a block */
#define BC7_CHOOSER 68 /* of a chooser: its pixels, the block it holds and its error, lowest byte first */
#define BC7_FIELDS 31  /* of the fields read: mode, partition, red, green and blue of four endpoints, p-bits, sixteen indices */

#define BC7_REFUSAL(answer) ((uint32_t)((answer) >> 32))
#define BC7_ERROR(answer) ((uint32_t)(answer))

#ifdef __cplusplus
extern "C" {
#endif

/* Writes the block of a candidate with fixed p-bits and sixteen indices of four bits each, that of pixel 0 lowest. */
uint32_t bc7_pack(uint32_t mode, uint32_t partition, uint32_t e0, uint32_t e1, uint32_t e2, uint32_t e3, uint32_t p, uint64_t indices,
                  uint8_t *block, size_t block_len);

/* Writes the best block for the pixels that the candidate can become, and gives its error. */
uint64_t bc7_finish(const uint8_t *pixels, size_t pixels_len, uint32_t mode, uint32_t partition, uint32_t e0, uint32_t e1, uint32_t e2,
                    uint32_t e3, uint32_t p, uint32_t free, uint8_t *block, size_t block_len);

/* Starts a chooser over the pixels as they stand. After refusal 1 it is an empty chooser over black pixels. */
uint32_t bc7_start(const uint8_t *pixels, size_t pixels_len, uint8_t *chooser, size_t chooser_len);

/* Offers a candidate: the chooser then holds the block of least error so far, the earliest of equal ones. */
uint32_t bc7_offer(uint8_t *chooser, size_t chooser_len, uint32_t mode, uint32_t partition, uint32_t e0, uint32_t e1, uint32_t e2,
                   uint32_t e3, uint32_t p, uint32_t free);

/* Writes the block held and gives its error: before any accepted offer sixteen zero bytes and 4294967295. */
uint64_t bc7_take(const uint8_t *chooser, size_t chooser_len, uint8_t *block, size_t block_len);

/* Reads a block of mode 1 or 3: its pixels and its fields. */
uint32_t bc7_read(const uint8_t *block, size_t block_len, uint8_t *pixels, size_t pixels_len, uint8_t *fields, size_t fields_len);

/* Gives the error of a block of mode 1 or 3 against pixels. */
uint64_t bc7_measure(const uint8_t *block, size_t block_len, const uint8_t *pixels, size_t pixels_len);

#ifdef __cplusplus
}
#endif

#endif
