#!/usr/bin/env python3
"""Writes the parts of `crates/conformance/stdin` about sessions and lines, which are the last ones, anew. The program is not run."""

import os
import sys
import textwrap

sys.dont_write_bytecode = True

import collector_rows
import line_rows
import link_rows
import subscription_rows
import validator_rows
from row_texts import NAMES

TABLE = os.path.join(os.path.dirname(os.path.abspath(__file__)), *[os.pardir] * 2, "crates", "conformance", "stdin")
HEADING = "## Octets that rows of sessions name"
INTRODUCTION = """\
Batches, messages, and faults in them. `s_` is the SDATA `ask` with a fault, `c_` the CDATA `none` with one, and `m_` a
message of SWIMA that has one, or none at the other end. The answers of all rows below are by `examples/make`."""

FAMILIES = [
    ("Sessions: a collector's end", collector_rows.PARTS),
    ("Sessions: subscriptions at a collector's end", subscription_rows.PARTS),
    ("Sessions: a validator's end", validator_rows.PARTS),
    ("Sessions over a link", link_rows.PARTS),
    ("The lines of a source of changes", line_rows.PARTS),
]


def comment(text):
    return textwrap.fill(text, 100, initial_indent="# ", subsequent_indent="# ")


def named(parts):
    """The names that rows use, each with its octets."""
    text = "\n".join(parts)
    return [f"let {word} = {octets.hex()}" for octets, word in NAMES.items() if f"{{{word}}}" in text]


def main():
    parts = []
    for family, kinds in FAMILIES:
        for what, make in kinds:
            groups = [f"{comment(heading)}\n" + "\n".join(rows) for heading, rows in make()]
            parts.append(f"## {family}: {what}\n" + "\n\n".join(groups))
    first = f"{HEADING}\n{comment(' '.join(INTRODUCTION.split()))}\n\n" + "\n".join(named(parts))
    with open(TABLE, encoding="utf-8") as it:
        before = it.read().split(HEADING)[0].rstrip("\n")
    with open(TABLE, "w", encoding="utf-8") as it:
        it.write("\n\n".join([before, first, *parts]) + "\n")


if __name__ == "__main__":
    main()
