#!/usr/bin/env python3
"""Prints what call_checks must print, from the chapter's layout and rules, and the Rust's partition texts, steps of finishing and choice.

python3 expected.py BCN_DATA.RS > stdout, where BCN_DATA.RS is src/bcn_data.rs of image-dds.
"""
import itertools
import re
import sys

TEXTS = re.findall(r'subset2\(\*b"([01-]{17})"\)', open(sys.argv[1]).read())
assert len(TEXTS) == 64
SUBSETS = [[int(d) for d in text if d != '-'] for text in TEXTS]
ANCHORS = [text.index('-') for text in TEXTS]
WEIGHTS = {2: (0, 21, 43, 64), 3: (0, 9, 18, 27, 37, 46, 55, 64)}
# of each mode: the bits of a channel, the number of p-bits, the bits of an index
MODES = {1: (6, 2, 3), 3: (7, 4, 2)}
# of each mode: the p-bits that a subset tries where they are free, the lower endpoint's first
ALL = {1: ((0, 0), (1, 1)), 3: ((0, 0), (0, 1), (1, 0), (1, 1))}
# of each kind: what a drawn byte becomes
KINDS = (lambda b: b, lambda b: 96 + b % 8, lambda b: 255 * (b >= 128), lambda b: b % 8, lambda b: b % 2, lambda b: 0)
# what is held before any candidate is accepted
NOTHING = bytes(16), 2 ** 32 - 1
KEPT = 165
BLOCKS = 256
LISTS = 64
CALLS = 12
RAMP = [i * 5 % 256 for i in range(48)]


def widths(mode, partition):
    """The bits of each field, lowest first."""
    channel, p_bits, index = MODES[mode]
    anchors = (0, ANCHORS[partition])
    return [mode + 1, 6] + [channel] * 12 + [1] * p_bits + [index - (i in anchors) for i in range(16)]


def split(block, sizes):
    """The fields of these widths, from bit 0 of byte 0 on."""
    number = int.from_bytes(block, 'little')
    fields = []
    for size in sizes:
        fields.append(number & ((1 << size) - 1))
        number >>= size
    return fields


def read(block):
    """Mode, partition, four endpoints, p-bits as one number, and indices."""
    mode = next(k for k in range(8) if block[0] >> k & 1)
    partition = split(block, [mode + 1, 6])[1]
    fields = split(block, widths(mode, partition))
    n = MODES[mode][1]
    ends = [tuple(fields[2 + 4 * c + k] for c in range(3)) for k in range(4)]
    p = sum(bit << k for k, bit in enumerate(fields[14:14 + n]))
    return mode, partition, ends, p, fields[14 + n:]


def pack(mode, partition, ends, p, indices):
    """The block of these fields. A subset whose anchor's index has its top bit set is turned round."""
    _, n, size = MODES[mode]
    ends, bits, indices = list(ends), [p >> k & 1 for k in range(n)], list(indices)
    for s, anchor in ((0, 0), (1, ANCHORS[partition])):
        if indices[anchor] >> (size - 1):
            ends[2 * s], ends[2 * s + 1] = ends[2 * s + 1], ends[2 * s]
            if n == 4:
                bits[2 * s], bits[2 * s + 1] = bits[2 * s + 1], bits[2 * s]
            indices = [(1 << size) - 1 - x if SUBSETS[partition][i] == s else x for i, x in enumerate(indices)]
    values = [1 << mode, partition] + [ends[k][c] for c in range(3) for k in range(4)] + bits + indices
    number = at = 0
    for value, width in zip(values, widths(mode, partition)):
        assert value < 1 << width
        number |= value << at
        at += width
    assert at == 128
    return number.to_bytes(16, 'little')


def shown(mode, end, bit):
    """The bytes that a stored endpoint shows: the p-bit below each channel, and the top bits again below both."""
    n = MODES[mode][0] + 1
    return [v << (8 - n) | v >> (2 * n - 8) for v in (2 * e + bit for e in end)]


def bits_of(mode, p, s):
    """The p-bits of the lower and the upper endpoint of a subset."""
    return (p >> s & 1, p >> s & 1) if mode == 1 else (p >> 2 * s & 1, p >> 2 * s + 1 & 1)


def palette(mode, ends, s, bits):
    """The colours of a subset at these p-bits, from its lower endpoint to its upper."""
    lower, upper = (shown(mode, ends[2 * s + k], bits[k]) for k in (0, 1))
    return [[((64 - w) * x + w * y + 32) >> 6 for x, y in zip(lower, upper)] for w in WEIGHTS[MODES[mode][2]]]


def pixels(mode, partition, ends, p, indices):
    """The 48 bytes that the chapter shows."""
    rows = [palette(mode, ends, s, bits_of(mode, p, s)) for s in (0, 1)]
    return [v for s, index in zip(SUBSETS[partition], indices) for v in rows[s][index]]


def distance(a, b):
    """The sum of the squares of what two pictures differ by."""
    return sum((x - y) ** 2 for x, y in zip(a, b))


def sort_block(partition, block):
    """The pixels of subset 0, then those of subset 1, each in pixel order: the places in use, counted upward."""
    places = {i + 16 * SUBSETS[partition][i] for i in range(16)}
    return [block[k % 16] for k in range(32) if k in places]


def closest(colours, block):
    """The indices of pixels and their error. A colour takes a pixel over only where it is nearer than all before it."""
    indices, error = [], 0
    for pixel in block:
        best_index, best_distance = 0, 2 ** 32 - 1
        for index, colour in enumerate(colours):
            far = distance(pixel, colour)
            if far < best_distance:
                best_index, best_distance = index, far
        indices.append(best_index)
        error += best_distance
    return indices, error


def pick_best(choices, trial):
    """The first choice of least error, with what its trial gives."""
    best_bits, (best_indices, best_error) = choices[0], trial(choices[0])
    for bits in choices[1:]:
        indices, error = trial(bits)
        if error < best_error:
            best_bits, best_indices, best_error = bits, indices, error
    return best_bits, best_indices, best_error


def merge2(partition, first, second):
    """The indices of both subsets in pixel order again."""
    lists = iter(first), iter(second)
    return [next(lists[s]) for s in SUBSETS[partition]]


def finish(picture, mode, partition, ends, p):
    """The block and its error. Free p-bits are None."""
    block = sort_block(partition, [picture[3 * i:3 * i + 3] for i in range(16)])
    size = SUBSETS[partition].count(0)
    number, found, total = 0, [], 0
    for s, own in ((0, block[:size]), (1, block[size:])):
        choices = ALL[mode] if p is None else (bits_of(mode, p, s),)
        bits, indices, error = pick_best(choices, lambda bits: closest(palette(mode, ends, s, bits), own))
        number |= bits[0] << s if mode == 1 else bits[0] << 2 * s | bits[1] << 2 * s + 1
        found.append(indices)
        total += error
    return pack(mode, partition, ends, number, merge2(partition, *found)), total


def declined(mode, partition, channel, p):
    """The checks 3 to 6, by the greatest channel."""
    if mode not in MODES:
        return 3
    bits, n, _ = MODES[mode]
    limits = ((4, partition, 64), (5, channel, 1 << bits), (6, p, 1 << n))
    return next((refusal for refusal, value, limit in limits if value >= limit), 0)


def call_pack(mode, partition, channel, p, index, size):
    """The refusal of pack, and the bytes that it changes."""
    if size != 16:
        return 2, 0
    refusal = declined(mode, partition, channel, p)
    if refusal:
        return refusal, 0
    if index >> MODES[mode][2]:
        return 7, 0
    block = pack(mode, partition, [(channel,) * 3] * 4, p, [index] * 16)
    return 0, sum(b != KEPT for b in block)


def call_finish(mode, partition, last, p, count, size):
    """The refusal of finish over black pixels, the error, and the bytes that it changes."""
    if count != 48:
        return 1, 0, 0
    if size != 16:
        return 2, 0, 0
    refusal = declined(mode, partition, last, p)
    if refusal:
        return refusal, 0, 0
    block, error = finish([0] * 48, mode, partition, [(0, 0, 0)] * 3 + [(0, 0, last)], p)
    return 0, error, sum(b != KEPT for b in block)


def call_read(first, size, count):
    """The refusal of read, the bytes that it changes, and the fields that it answers: all zero after a refusal."""
    none = 0, (0, 0, [(0, 0, 0)] * 4, 0, [0] * 16)
    if count != 48:
        return 1, *none
    if size != 16:
        return 2, *none
    if first == 0:
        return 8, *none
    if first & -first not in (2, 8):
        return 9, *none
    fields = read(bytes([first] + [0] * 15))
    return 0, sum(b != KEPT for b in pixels(*fields)), fields


def held(picture, candidates):
    """The block and the error of the earliest of the accepted candidates of least error, or those of a chooser that has none."""
    return min((finish(picture, *c) for c in candidates), key=lambda made: made[1], default=NOTHING)


def refusal_of(mode, partition, ends, p):
    """The refusal of offer, or 0."""
    return declined(mode, partition, max(max(end) for end in ends), 0 if p is None else p)


def draw(seed, count):
    """The generator's number after so many bytes, and the bytes."""
    drawn = []
    for _ in range(count):
        seed = (seed * 1103515245 + 12345) % 2 ** 31
        drawn.append(seed >> 16 & 255)
    return seed, drawn


def run(mode):
    """The line of the drawn blocks of a mode."""
    seed, total, differ = mode, 0, 0
    for _ in range(BLOCKS):
        seed, block = draw(seed, 16)
        low = 1 << mode
        block = bytes([block[0] // (2 * low) * 2 * low + low] + block[1:])
        fields = read(block)
        picture = pixels(*fields)
        differ += pack(*fields) != block
        _, partition, ends, p, indices = fields
        far = distance(picture, RAMP)
        for n in [mode, partition, p] + [v for end in ends for v in end] + indices + picture + [far % 65536, far // 65536]:
            total = (total * 31 + n) % 65536
    print('drawn', mode, BLOCKS, differ, total)


def put_finished(label, picture, mode, partition, ends, p):
    """The line of a finished block, whose error is its distance from the picture."""
    block, error = finish(picture, mode, partition, ends, p)
    far = distance(picture, pixels(*read(block)))
    assert far == error
    print(label, mode, partition, 0, error, 'measured', 0, far, block.hex())
    return block, error


def fixed_of(kind, mode, partition, drawn):
    """A candidate with endpoints of a kind from the first twelve drawn bytes, and fixed p-bits from the last."""
    channel, p_bits, _ = MODES[mode]
    stored = [KINDS[kind](b) >> (8 - channel) for b in drawn[:12]]
    return mode, partition, [tuple(stored[3 * k:3 * k + 3]) for k in range(4)], drawn[12] % (1 << p_bits)


def put_partitions(mode):
    """Every partition of a mode, with pixels and endpoints of one of four kinds."""
    seed = mode
    for partition in range(64):
        seed, drawn = draw(seed, 61)
        kind = partition % 4
        picture = [KINDS[kind](b) for b in drawn[:48]]
        fixed = fixed_of(kind, mode, partition, drawn[48:])
        put_finished('fixed', picture, *fixed)
        put_finished('free', picture, *fixed[:3], None)


def put_held(label, made):
    """The line of a take into a part of 16 bytes."""
    block, error = made
    print(label, 0, error, block.hex())


def put_offer(picture, before, case):
    """The line of an offer to a chooser that holds a block and an error, and what it then holds."""
    mode, partition, last, p = case
    refusal = declined(mode, partition, last, p)
    after = before
    if not refusal:
        made = finish(picture, mode, partition, [(0, 0, 0)] * 3 + [(0, 0, last)], p)
        after = min(before, made, key=lambda x: x[1])
    print('offer', refusal, before[1], after[1], 0, sum(x != y for x, y in zip(before[0], after[0])))
    return after


def numbered(kind, pool, n):
    """The candidate of a number and a kind."""
    _, drawn = draw(pool + 65537 * n, 16)
    mode, partition, ends, p = fixed_of(kind, drawn[13] % 2 * 2 + 1, drawn[14] % 64, drawn[:13])
    return mode, partition, ends, None if drawn[15] % 2 else p


def spoiled(reason, c):
    """A candidate that is declined for the first, second, third or fourth of the reasons."""
    mode, partition, ends, p = c
    return (
        (mode - 1, partition, ends, p), (mode, partition + 64, ends, p),
        (mode, partition, [(0, 0, 0)] * 3 + [(0, 0, 128)], p), (mode, partition, ends, 16),
    )[reason]


def put_list(seed, kind):
    """The line of a list of calls. Gives the generator's number after it, and the accepted blocks of least error. Takes change nothing."""
    pool, drawn = draw(seed, 48)
    picture = [KINDS[kind](b) for b in drawn]
    seed, accepted, refused = pool, [], 0
    for _ in range(CALLS):
        seed, (call, n, more) = draw(seed, 3)
        if call % 8 < 6:
            c = numbered(kind, pool, n % 8)
            if call % 8 == 5:
                c = spoiled(more % 4, c)
                assert refusal_of(*c) == 3 + more % 4
            if refusal_of(*c):
                refused += 1
            else:
                accepted.append(c)
    made = held(picture, accepted)
    put_held(f'list {len(accepted)} {refused} held', made)
    return seed, {block for block, error in (finish(picture, *c) for c in accepted) if error == made[1]}


def put_orders(kind):
    """The lines of four candidates in every order. Gives the blocks that are held after one of them."""
    pool, drawn = draw(kind, 48)
    picture = [KINDS[kind](b) for b in drawn]
    blocks = set()
    for order in itertools.permutations(range(4)):
        made = held(picture, [numbered(kind, pool, n) for n in order])
        put_held('order %d %d %d %d held' % order, made)
        blocks.add(made[0])
    return blocks


for mode in (1, 3):
    print('packed', mode, 0, pack(mode, 63, [(0, 0, 0)] * 4, 0, [0] * 16).hex())
ENDS = [(1, 2, 3), (60, 50, 40), (9, 18, 27), (63, 0, 33)]
for mode, p, largest in ((1, 2, 7), (3, 9, 3)):
    print('packed', mode, 0, pack(mode, 17, ENDS, p, [largest] * 16).hex())
for case in (
    (1, 0, 0, 0, 0, 0), (1, 0, 0, 0, 0, 15), (2, 0, 0, 0, 0, 17), (2, 64, 0, 0, 0, 16), (1, 64, 64, 0, 0, 16),
    (1, 63, 64, 4, 0, 16), (3, 63, 64, 0, 0, 16), (3, 63, 128, 16, 0, 16), (1, 63, 63, 4, 8, 16), (3, 63, 127, 16, 4, 16),
    (1, 63, 63, 3, 8, 16), (3, 63, 127, 15, 4, 16), (1, 63, 63, 3, 7, 16), (3, 63, 127, 15, 3, 16),
):
    print('pack', *call_pack(*case))
for case in (
    (0, 16, 48), (1, 16, 48), (4, 16, 48), (128, 16, 48), (2, 16, 48), (8, 16, 48),
    (2, 16, 47), (2, 16, 49), (2, 0, 48), (2, 15, 48), (2, 17, 48), (2, 15, 47),
):
    refusal, changed, (mode, partition, ends, p, indices) = call_read(*case)
    channels = bytes(x for e in ends for x in e).hex()
    print('read', refusal, changed, 'fields', mode, partition, channels, p, bytes(indices).hex(), 'measured', refusal, 0)
for mode in (1, 3):
    run(mode)
ZERO = [(0, 0, 0)] * 4
# of P1 to P7: every pixel byte, the mode, the channels of endpoint 0, the p-bits, and the specification's bytes and error
for label, v, mode, channel, p, answer, error in (
    ('P1', 0, 1, 0, 0, '02' + '00' * 15, 0),
    ('P2', 0, 3, 0, 0, '08' + '00' * 15, 0),
    ('P3', 255, 1, 0, 0, '02' + '00' * 15, 3121200),
    ('P4', 0, 1, 63, 0, '02c00f00c00f00c00f' + '00' * 7, 0),
    ('P5', 0, 3, 127, 1, '0800fe0000e00f0000fe008000000000', 0),
    ('P6', 2, 1, 0, None, '02' + '00' * 9 + '03' + '00' * 5, 0),
    ('P7', 1, 1, 0, None, '02' + '00' * 15, 48),
):
    made = put_finished(label, [v] * 48, mode, 0, [(channel,) * 3] + ZERO[1:], p)
    assert made == (bytes.fromhex(answer), error)
# three different channels: red 2, green 4 and blue 8
made = put_finished('RGB', [2, 4, 8] * 16, 3, 0, [(1, 2, 4)] * 4, 0)
assert made == (bytes.fromhex('08040281804020101008040200000000'), 0)
for case in (
    (1, 0, 0, 0, 47, 16), (2, 0, 0, 0, 49, 16), (1, 0, 0, 0, 48, 15), (2, 0, 0, 0, 48, 17), (1, 0, 0, 0, 47, 15),
    (2, 64, 0, 0, 48, 16), (0, 0, 0, 0, 48, 16), (255, 0, 0, 0, 48, 16), (1, 64, 0, 0, 48, 16), (1, 64, 64, 0, 48, 16),
    (1, 63, 64, 4, 48, 16), (3, 63, 64, 0, 48, 16), (3, 63, 128, 16, 48, 16), (1, 63, 63, 4, 48, 16), (3, 63, 127, 16, 48, 16),
    (1, 63, 63, 3, 48, 16), (3, 63, 127, 15, 48, 16),
):
    print('finish', *call_finish(*case))
for mode, channel, largest in ((1, 63, 3), (3, 127, 15)):
    for label, v in (('black', 0), ('white', 255)):
        for stored, p in ((0, 0), (0, None), (channel, largest), (channel, None)):
            put_finished(label, [v] * 48, mode, 0, [(stored,) * 3] * 4, p)
# endpoints stored alike that show 0 and 1: the nearest index is 2, the lower of two, and the exchange makes it 1
for v, p in ((1, 0b1010), (0, 0b0101)):
    block, error = finish([v] * 48, 3, 0, ZERO, p)
    indices = read(block)[4]
    assert indices == [1] * 16
    print('indices', bytes(indices).hex(), 0, error, block.hex())
# the p-bits 01 and 10 of subset 0 both show its two colours, and 01 is kept
made = put_finished('tie', [0] * 3 + [1] * 3 + [0] * 42, 3, 0, ZERO, None)
assert made == (bytes.fromhex('08' + '00' * 10 + '8010000000'), 0)
for mode in (1, 3):
    put_partitions(mode)
P1, P2 = ((mode, 0, ZERO, 0) for mode in (1, 3))
BLACK, GREY = [0] * 48, [40] * 48
for label, candidates, answer, error in (
    ('P9', [], '00' * 16, 2 ** 32 - 1), ('P11', [P1, P2], '02' + '00' * 15, 0), ('turned', [P2, P1], '08' + '00' * 15, 0),
):
    made = held(BLACK, candidates)
    assert made == (bytes.fromhex(answer), error)
    put_held(label, made)
for count in (47, 48, 49):
    picture = GREY if count == 48 else BLACK
    print('start', int(count != 48), sum(b != 0 for b in picture), NOTHING[1], NOTHING[0].hex())
    put_held('held', held(picture, [P1]))
HOLDING = held(GREY, [P1])
for size in (0, 15, 16, 17):
    print('take', *(0, HOLDING[1], sum(b != KEPT for b in HOLDING[0])) if size == 16 else (2, 0, 0))
    put_held('held', HOLDING)
for case in (
    (0, 0, 0, 0), (2, 0, 0, 0), (255, 0, 0, 0), (1, 64, 0, 0), (3, 64, 0, 0), (1, 0, 64, 0), (3, 0, 128, 0), (1, 0, 0, 4), (3, 0, 0, 16),
    (2, 64, 128, 16), (2, 64, 0, 0), (1, 64, 64, 4), (1, 63, 64, 4), (3, 63, 128, 16),
    (3, 0, 64, 0), (3, 0, 127, 0), (1, 0, 63, 0), (1, 0, 0, 3), (3, 0, 0, 15), (1, 63, 0, 0), (3, 63, 0, 0),
):
    put_offer(GREY, HOLDING, case)
for error in (0, 2 ** 32 - 1):
    made = bytes([171] * 16), error
    put_held('made up', made)
    made = put_offer(GREY, made, (1, 0, 0, 0))
    put_held('held', made)
    made = put_offer(GREY, put_offer(GREY, made, (2, 0, 0, 0)), (1, 0, 0, 3))
    put_held('held', made)
seed, ties = 0, 0
for k in range(LISTS):
    seed, least = put_list(seed, k % 6)
    ties += len(least) > 1
print('wrong', 0)
# among lists with several blocks of least error the order tells which is held
assert ties > 10
assert len(put_orders(2)) == 1
assert len(put_orders(4)) == 2
