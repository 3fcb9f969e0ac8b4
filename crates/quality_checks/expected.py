#!/usr/bin/env python3
"""Writes what quality_checks reads, and what it must then print, computed with 60 decimal places.

python3 expected.py FOLDER writes FOLDER/stdin and FOLDER/stdout. A part of a record stands behind the whole ones.
"""
import pathlib
import random
import sys

sys.path.append(str(pathlib.Path(__file__).parents[2] / 'compare'))
sys.dont_write_bytecode = True

from quality import chosen_pairs, drawn_pairs, lines, record

SEED, PAIRS = 2, 300

if __name__ == '__main__':
    if len(sys.argv) != 2:
        sys.exit('usage: expected.py FOLDER')
    tried = [*chosen_pairs(), *drawn_pairs(random.Random(SEED), PAIRS)]
    # those of which two lines would be right are left out
    pairs = [pair for pair in tried if len(lines(*pair)) == 1]
    folder = pathlib.Path(sys.argv[1])
    (folder / 'stdin').write_bytes(b''.join(record(*pair) for pair in pairs) + bytes(15))
    (folder / 'stdout').write_text(''.join(f'{line}\n' for pair in pairs for line in lines(*pair)))
