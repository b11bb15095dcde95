"""Writes lines of a source, and the digits of their tags alone.

usage: python3 bench/tag_lines.py COUNT small|large LINES DIGITS

COUNT lines `add KEY LOCATOR HEX` go to the file LINES, and the last word of each, a line each, to the
file DIGITS. A small tag has two links and no file, a large one 60 files too. The same words give the
same octets.
"""

import random
import sys

sys.dont_write_bytecode = True

from cbor_items import tag


def main(count, size, lines, digits):
    chance = random.Random(1)
    with open(lines, "w") as of_lines, open(digits, "w") as of_digits:
        for key in range(int(count)):
            word = tag(chance, key, 2, size == "large").hex()
            of_lines.write(f"add {key} /opt/package-{key} {word}\n")
            of_digits.write(f"{word}\n")


if __name__ == "__main__":
    if len(sys.argv) != 5 or not sys.argv[1].isdecimal() or sys.argv[2] not in ("small", "large"):
        sys.exit(__doc__.strip())
    main(*sys.argv[1:])
