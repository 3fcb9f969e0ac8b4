/* Calls every function of include/bc7.h with parts of right and wrong lengths, each between guard bytes, and with numbers in and
   out of range, and holds the refusal, the error and every byte of parts and guards to the header. See guards. */
#include "bc7.h"
#include <inttypes.h>
#include <stdbool.h>
#include <stdio.h>
#include <string.h>

/* The kinds of part. */
enum { PIXELS, BLOCK, CHOOSER, FIELDS, PARTS };
static const size_t LENGTHS[PARTS] = {BC7_PIXELS, BC7_BLOCK, BC7_CHOOSER, BC7_FIELDS};

/* The functions. */
enum { PACK, FINISH, START, OFFER, TAKE, READ, MEASURE, CALLS };

/* How many an array has. */
#define COUNT(array) (sizeof(array) / sizeof *(array))

/* Sets of parts and functions, by bit. */
#define BIT(k) (1u << (k))
#define HAS(set, k) (((set) & BIT(k)) != 0)

/* What the header says of each function: its name, the parts that it is handed and those that it writes. */
static const struct {
    const char *name;
    unsigned handed, written;
} CALL[CALLS] = {
    {"bc7_pack", BIT(BLOCK), BIT(BLOCK)},
    {"bc7_finish", BIT(PIXELS) | BIT(BLOCK), BIT(BLOCK)},
    {"bc7_start", BIT(PIXELS) | BIT(CHOOSER), BIT(CHOOSER)},
    {"bc7_offer", BIT(CHOOSER), BIT(CHOOSER)},
    {"bc7_take", BIT(CHOOSER) | BIT(BLOCK), BIT(BLOCK)},
    {"bc7_read", BIT(BLOCK) | BIT(PIXELS) | BIT(FIELDS), BIT(PIXELS) | BIT(FIELDS)},
    {"bc7_measure", BIT(BLOCK) | BIT(PIXELS), 0},
};

/* The functions that are handed a candidate, and those that read a block. */
static const unsigned CANDIDATE = BIT(PACK) | BIT(FINISH) | BIT(OFFER);
static const unsigned READS = BIT(READ) | BIT(MEASURE);

/* The most that a part is longer than it has to be, and the guard bytes at each side. */
enum { LONGER = 256, GUARD = 64, ROOM = BC7_CHOOSER + LONGER, SPAN = GUARD + ROOM + GUARD };

/* What a function is handed: numbers, byte 0 of a block to be read, and for each part its length and whether it is NULL. */
struct input {
    uint32_t mode, partition, ends[4], p, free;
    uint64_t indices;
    uint8_t first;
    size_t length[PARTS];
    bool null[PARTS];
};

/* The bytes of each part with its guards: at first, before the call and now. */
static uint8_t fresh[PARTS][SPAN], before[PARTS][SPAN], bytes[PARTS][SPAN];

/* How many calls there were, and how many of them were wrong. */
static unsigned long calls[CALLS], wrong[CALLS];

/* The refusal of a candidate's numbers: the first of 3 to 6 that applies, or 0. */
static uint32_t candidate_refusal(const struct input *in, bool fixed) {
    if (in->mode != 1 && in->mode != 3) return 3;
    if (in->partition > 63) return 4;
    uint32_t channel = in->mode == 1 ? 63 : 127, p = in->mode == 1 ? 3 : 15;
    for (int k = 0; k < 4; k++) {
        uint32_t end = in->ends[k];
        if (end % 256 > channel || end / 256 % 256 > channel || end / 65536 > channel) return 5;
    }
    return fixed && in->p > p ? 6 : 0;
}

/* The refusal of sixteen indices: 7 or 0. */
static uint32_t index_refusal(const struct input *in) {
    for (int i = 0; i < 16; i++) {
        if ((in->indices >> 4 * i & 15) > (in->mode == 1 ? 7u : 3u)) return 7;
    }
    return 0;
}

/* The refusal of a block to be read: 8, 9 or 0. */
static uint32_t block_refusal(uint8_t first) {
    if (first == 0) return 8;
    return first % 4 == 2 || first % 16 == 8 ? 0 : 9;
}

/* True where a function is handed a part and it has a wrong length. */
static bool misfit(int call, const struct input *in, int part) {
    return HAS(CALL[call].handed, part) && in->length[part] != LENGTHS[part];
}

/* The refusal that the header lists: the first that applies. */
static uint32_t refusal(int call, const struct input *in) {
    if (misfit(call, in, CHOOSER) || misfit(call, in, FIELDS)) return 255;
    if (misfit(call, in, PIXELS)) return 1;
    if (misfit(call, in, BLOCK)) return 2;
    uint32_t declined = 0;
    if (HAS(CANDIDATE, call)) declined = candidate_refusal(in, call == PACK || in->free == 0);
    if (declined == 0 && call == PACK) declined = index_refusal(in);
    if (HAS(READS, call)) declined = block_refusal(in->first);
    return declined;
}

/* Makes 68 bytes an empty chooser over pixels, black ones where there are none. */
static void empty_chooser(uint8_t *chooser, const uint8_t *pixels) {
    memset(chooser, 0, 64);
    if (pixels) memcpy(chooser, pixels, 48);
    memset(chooser + 64, 0xff, 4);
}

/* Makes bytes for every part, none of them 0. */
static void make_fresh(void) {
    for (int part = 0; part < PARTS; part++) {
        for (int i = 0; i < SPAN; i++) fresh[part][i] = (uint8_t)(1 + (7 * i * i + 31 * i + 50 * part) % 255);
    }
}

/* Gives every part fresh bytes, but for byte 0 of a block to be read; a chooser handed in is an empty one over such pixels. */
static void lay(int call, const struct input *in) {
    memcpy(bytes, fresh, sizeof bytes);
    if (HAS(READS, call)) bytes[BLOCK][GUARD] = in->first;
    if (call == OFFER || call == TAKE) empty_chooser(bytes[CHOOSER] + GUARD, bytes[PIXELS] + GUARD);
    memcpy(before, bytes, sizeof bytes);
}

/* Calls a function; the answer is one of 64 bits also where it is a refusal alone. */
static uint64_t invoke(int call, const struct input *in) {
    uint8_t *at[PARTS];
    for (int part = 0; part < PARTS; part++) at[part] = in->null[part] ? NULL : bytes[part] + GUARD;
    const size_t *len = in->length;
    const uint32_t *e = in->ends;
    switch (call) {
    case PACK:
        return (uint64_t)bc7_pack(in->mode, in->partition, e[0], e[1], e[2], e[3], in->p, in->indices, at[BLOCK], len[BLOCK]) << 32;
    case FINISH:
        return bc7_finish(at[PIXELS], len[PIXELS], in->mode, in->partition, e[0], e[1], e[2], e[3], in->p, in->free, at[BLOCK],
                          len[BLOCK]);
    case START:
        return (uint64_t)bc7_start(at[PIXELS], len[PIXELS], at[CHOOSER], len[CHOOSER]) << 32;
    case OFFER:
        return (uint64_t)bc7_offer(at[CHOOSER], len[CHOOSER], in->mode, in->partition, e[0], e[1], e[2], e[3], in->p, in->free)
               << 32;
    case TAKE:
        return bc7_take(at[CHOOSER], len[CHOOSER], at[BLOCK], len[BLOCK]);
    case READ:
        return (uint64_t)bc7_read(at[BLOCK], len[BLOCK], at[PIXELS], len[PIXELS], at[FIELDS], len[FIELDS]) << 32;
    default:
        return bc7_measure(at[BLOCK], len[BLOCK], at[PIXELS], len[PIXELS]);
    }
}

/* What is wrong with the answer, or NULL. A take is from an empty chooser. */
static const char *wrong_answer(int call, uint32_t expected, uint64_t answer) {
    if (BC7_REFUSAL(answer) != expected) return "refusal";
    if (expected != 0) return BC7_ERROR(answer) == 0 ? NULL : "error after a refusal";
    if (call == TAKE) return BC7_ERROR(answer) == UINT32_MAX ? NULL : "error of an empty chooser";
    return BC7_ERROR(answer) <= 3121200 ? NULL : "error";
}

/* What is wrong with the bytes of a part and its guards, or NULL. A part to be written may hold anything but what it held. */
static const char *wrong_part(int call, uint32_t expected, int part) {
    uint8_t *was = before[part], *is = bytes[part];
    bool started = call == START && part == CHOOSER && expected <= 1;
    if (started) empty_chooser(was + GUARD, expected == 0 ? before[PIXELS] + GUARD : NULL);
    if (started || expected != 0 || !HAS(CALL[call].written, part)) return memcmp(was, is, SPAN) == 0 ? NULL : "bytes of a part";
    size_t end = GUARD + LENGTHS[part];
    if (memcmp(was, is, GUARD) != 0 || memcmp(was + end, is + end, SPAN - end) != 0) return "guard bytes";
    return memcmp(was, is, SPAN) != 0 ? NULL : "part, left as it was";
}

/* Prints a wrong call with all that it was handed. */
static void show(int call, const struct input *in, uint32_t expected, uint64_t answer, const char *what) {
    const uint32_t *e = in->ends;
    const size_t *len = in->length;
    printf("wrong %s: %s answers %u for %" PRIu32 ", error %u;", what, CALL[call].name, (unsigned)BC7_REFUSAL(answer), expected,
           (unsigned)BC7_ERROR(answer));
    printf(" mode %" PRIu32 " partition %" PRIu32, in->mode, in->partition);
    printf(" ends %" PRIx32 " %" PRIx32 " %" PRIx32 " %" PRIx32, e[0], e[1], e[2], e[3]);
    printf(" p %" PRIu32 " free %" PRIu32 " indices %016" PRIx64 " byte 0 %02x;", in->p, in->free, in->indices, in->first);
    printf(" pixels %zu block %zu chooser %zu fields %zu bytes long\n", len[PIXELS], len[BLOCK], len[CHOOSER], len[FIELDS]);
}

/* Makes one call and counts it; the first three wrong ones of a function are shown. */
static void try(int call, const struct input *in) {
    lay(call, in);
    uint32_t expected = refusal(call, in);
    uint64_t answer = invoke(call, in);
    const char *what = wrong_answer(call, expected, answer);
    for (int part = 0; part < PARTS && !what; part++) what = wrong_part(call, expected, part);
    calls[call]++;
    if (what && ++wrong[call] <= 3) show(call, in, expected, answer, what);
}

/* Right parts, and numbers that no function declines. */
static const struct input GOOD = {
    .mode = 1, .partition = 17, .ends = {0x3f2a00, 0x013f15, 0x00003f, 0x102030}, .p = 2, .free = 0,
    .indices = 0x0123321001233210, .first = 2, .length = {BC7_PIXELS, BC7_BLOCK, BC7_CHOOSER, BC7_FIELDS},
};

/* Gives each part that a function is handed every length, each with all those of the others, and makes the calls. */
static void lengths_from(int call, int part, struct input in) {
    if (part == PARTS) {
        try(call, &in);
        return;
    }
    if (!HAS(CALL[call].handed, part)) {
        lengths_from(call, part + 1, in);
        return;
    }
    size_t n = LENGTHS[part], lengths[] = {0, 1, n - 1, n, n + 1, 2 * n, n + LONGER};
    for (size_t k = 0; k < COUNT(lengths); k++) {
        in.length[part] = lengths[k];
        lengths_from(call, part + 1, in);
    }
    in.length[part] = 0;
    in.null[part] = true;
    lengths_from(call, part + 1, in);
}

/* All lengths, with numbers and blocks that are taken and with some that are declined. */
static void try_lengths(int call) {
    struct input all[] = {GOOD, GOOD, GOOD, GOOD, GOOD, GOOD, GOOD};
    all[1].mode = 3, all[1].first = 8;
    all[2].mode = 2, all[2].first = 0;
    all[3].partition = 64, all[3].first = 1;
    all[4].ends[3] = 0x400000, all[4].first = 4;
    all[5].p = 4, all[5].first = 0x80;
    all[6].indices = 8, all[6].first = 0x10;
    for (size_t k = 0; k < COUNT(all); k++) lengths_from(call, 0, all[k]);
}

/* Every byte 0 of a block to be read. */
static void try_blocks(int call) {
    struct input in = GOOD;
    for (int first = 0; first < 256; first++) {
        in.first = (uint8_t)first;
        try(call, &in);
    }
}

/* Free p-bits and fixed ones. */
static void try_free(int call, struct input in) {
    static const uint32_t FREE[] = {0, 1, 2, UINT32_MAX};
    for (size_t k = 0; k < COUNT(FREE); k++) {
        in.free = FREE[k];
        try(call, &in);
    }
}

/* Indices at the limits of both modes, and with one of them above. */
static void try_indices(int call, struct input in) {
    static const uint64_t LIMITS[] = {0x3333333333333333, 0x7777777777777777}, OUT[] = {4, 8};
    for (size_t k = 0; k < COUNT(LIMITS); k++) {
        in.indices = LIMITS[k];
        try(call, &in);
        for (int shift = 0; shift < 64; shift += 4) {
            in.indices = (LIMITS[0] & ~(UINT64_C(15) << shift)) | OUT[k] << shift;
            try(call, &in);
        }
    }
}

/* P-bits at the limits of both modes and above. */
static void try_p(int call, struct input in) {
    static const uint32_t P[] = {0, 3, 4, 15, 16, 259, UINT32_MAX};
    for (size_t k = 0; k < COUNT(P); k++) {
        in.p = P[k];
        call == PACK ? try_indices(call, in) : try_free(call, in);
    }
}

/* Endpoints at a limit, and with one channel above or with a bit above the third byte. */
static void try_ends(int call, struct input in, uint32_t limit) {
    for (int k = 0; k < 4; k++) in.ends[k] = limit * 0x010101;
    try_p(call, in);
    for (int at = 0; at < 12; at++) {
        struct input out = in;
        out.ends[at / 3] += UINT32_C(1) << at % 3 * 8;
        try_p(call, out);
    }
    for (int at = 0; at < 8; at++) {
        struct input out = in;
        out.ends[at / 2] |= at % 2 ? UINT32_C(1) << 24 : UINT32_C(1) << 31;
        try_p(call, out);
    }
}

/* All modes and partitions, each with all endpoints and p-bits. */
static void try_numbers(int call) {
    static const uint32_t MODES[] = {1, 3, 0, 2, 4, 256, 257, 259, 65537, UINT32_MAX};
    static const uint32_t PARTITIONS[] = {0, 63, 64, 256, UINT32_MAX}, LIMITS[] = {0, 63, 127, 255};
    struct input in = GOOD;
    for (size_t m = 0; m < COUNT(MODES); m++) {
        for (size_t k = 0; k < COUNT(PARTITIONS); k++) {
            in.mode = MODES[m];
            in.partition = PARTITIONS[k];
            for (size_t e = 0; e < COUNT(LIMITS); e++) try_ends(call, in, LIMITS[e]);
        }
    }
}

/* All calls; a line for each function, and the sum. */
int main(void) {
    unsigned long made = 0, failed = 0;
    make_fresh();
    for (int call = 0; call < CALLS; call++) {
        try_lengths(call);
        if (HAS(CANDIDATE, call)) try_numbers(call);
        if (HAS(READS, call)) try_blocks(call);
        printf("%s: %lu calls, %lu wrong\n", CALL[call].name, calls[call], wrong[call]);
        made += calls[call];
        failed += wrong[call];
    }
    printf("%lu calls, %lu wrong\n", made, failed);
    return failed > 0;
}
