#!/usr/bin/env python3
"""Cuts the integer items of image-dds out of its source, unchanged, for the comparison.

cut.py REFERENCE OUT.rs, where REFERENCE is a folder with src/encode/bc7.rs and src/bcn_data.rs of image-dds at 05b62a8081.
items.txt names the items and holds the SHA-256 of each. An item goes from the attributes and documentation directly above it to the
line that closes it in the first column.
"""
import hashlib
import pathlib
import re
import sys

ITEMS = pathlib.Path(__file__).with_name('items.txt')
COMMIT = '05b62a8081'


def fail(text):
    """Ends with one line on standard error."""
    sys.exit(f'compare: {text}')


def listed():
    """The lines of items.txt: file, SHA-256 and name of each item."""
    rows = [line.split(maxsplit=2) for line in ITEMS.read_text().splitlines()]
    return [row for row in rows if row and row[0] != '#']


def source(folder, name):
    """The lines of a file of the reference, each with its end."""
    path = folder / name
    try:
        return path.read_bytes().decode().splitlines(keepends=True)
    except OSError as problem:
        fail(f'{path}: {problem.strerror}')
    except UnicodeDecodeError:
        fail(f'{path}: not UTF-8')


def opening(name):
    """The pattern of an item's first line, from its kind and name."""
    kind, rest = name.split(' ', 1)
    words = ' '.join(re.escape(word) + ('(<[^>]*>)?' if kind == 'impl' else '') for word in rest.split(' '))
    if kind == 'impl':
        return re.compile(rf'impl(<[^>]*>)? {words} \{{')
    return re.compile(rf'(pub(\(crate\))? )?(const )?{kind} {words}(?!\w)')


def cut(lines, path, name):
    """The text of an item."""
    pattern = opening(name)
    found = [i for i, line in enumerate(lines) if pattern.match(line)]
    if len(found) != 1:
        fail(f'{path}: {name}: ' + ('no such item' if not found else f'{len(found)} such items'))
    first = end = found[0]
    while first and lines[first - 1].startswith(('#[', '///')):
        first -= 1
    if not lines[end].rstrip().endswith((';', '}')):
        end = next((i for i in range(end + 1, len(lines)) if lines[i][0] in '}]'), None)
        if end is None:
            fail(f'{path}: {name}: the item has no end')
    return ''.join(lines[first:end + 1])


def main(reference, out):
    """Writes the items of items.txt, in its order, each checked by its SHA-256."""
    folder = pathlib.Path(reference)
    if not folder.is_dir():
        fail(f'{folder}: no such folder')
    rows = listed()
    files = {name: source(folder, name) for name, _, _ in rows}
    pieces = []
    for file, digest, name in rows:
        piece = cut(files[file], folder / file, name)
        if hashlib.sha256(piece.encode()).hexdigest() != digest:
            fail(f'{folder / file}: {name}: not the item of {COMMIT}')
        pieces.append((file, name, piece))
    pathlib.Path(out).write_text(f'// Items of image-dds at {COMMIT}, MIT OR Apache-2.0, cut by cut.py.\n\n'
                                 + '\n'.join(piece for _, _, piece in pieces), newline='')
    written = pathlib.Path(out).read_bytes()
    for file, name, piece in pieces:
        if piece.encode() not in (folder / file).read_bytes() or piece.encode() not in written:
            fail(f'{folder / file}: {name}: cut with a change')


if __name__ == '__main__':
    if len(sys.argv) != 3:
        sys.exit('usage: cut.py REFERENCE OUT.rs')
    main(*sys.argv[1:])
