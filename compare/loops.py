"""Says which products the loops of the search have in a library's machine code: loops.py LIBRARY. See bench.

The search is quick where its products are those of 16 bits, pmaddwd; pmuludq and imul are the slower ones that a compiler takes where
it does not see how small the factors are.
"""

import re
import subprocess
import sys

PRODUCTS = ("pmaddwd", "pmuludq", "imul")
FUNCTION = re.compile(r"^[0-9a-f]+ <(.*)>:$")
INSTRUCTION = re.compile(r"^\s+([0-9a-f]+):\t(\S+)\s*(.*)$")


def functions(library):
    """The instructions of each function: place, name and operands."""
    listing = subprocess.run(["objdump", "-d", "--no-show-raw-insn", library], capture_output=True, text=True, check=True).stdout
    body = []
    for line in listing.splitlines():
        if FUNCTION.match(line):
            yield body
            body = []
        elif found := INSTRUCTION.match(line):
            body.append((int(found[1], 16), found[2], found[3]))
    yield body


def loops(body):
    """The instructions' names in each innermost loop: from where a jump leads back to, up to the jump."""
    ends = [(int(operands.split()[0], 16), place) for place, name, operands in body if name.startswith("j") and re.match(r"[0-9a-f]+ <", operands)]
    back = [(start, end) for start, end in ends if start <= end]
    for start, end in back:
        if not any(start <= s and e <= end and (s, e) != (start, end) for s, e in back):
            yield [name for place, name, _ in body if start <= place <= end]


def main():
    """One line, and the exit status 1 where there is no such loop or a slower product in one."""
    searching = [names for body in functions(sys.argv[1]) for names in loops(body) if "pmaddwd" in names]
    count = {product: sum(names.count(product) for names in searching) for product in PRODUCTS}
    print(f"The search's loops, {len(searching)} in the library:", ", ".join(f"{count[product]} {product}" for product in PRODUCTS) + ".")
    return int(not searching or count["pmuludq"] + count["imul"] > 0)


sys.exit(main())
