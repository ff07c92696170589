#!/usr/bin/env python3
"""make_trace.py KIND ENTRIES, or make_trace.py KIND --bytes BYTES: writes a trace, the same one each time.

KIND is hot (one section, 512 lines), random (one section, a million lines all over memory) or sections (512 lines,
a section for each 40 entries). With --bytes the trace has exactly so many bytes.
"""
import random
import sys

KINDS = ("hot", "random", "sections")
BLOCK = 100_000
FEW = range(0x7F3A_5C00_0000, 0x7F3A_5C00_8000, 64)
ANYWHERE = range(0x1000_0000_0000, 0x7FFF_FFFF_FFC0, 64)


def places(kind):
    """The fields ADDR SIZE to choose from: eight in each of few lines, or one in each of many."""
    lines = random.sample(ANYWHERE, 1_000_000) if kind == "random" else [line for line in FEW for _ in range(8)]
    return [f"{line + random.randrange(0, 64, 8):x} {random.choice((1, 2, 4, 8, 16))}\n" for line in lines]


def blocks(kind):
    """Blocks of BLOCK entries without end, with the section lines where there are many."""
    accesses = [f"{core} {mark} {how} " for core in range(16) for mark in "aaabbb-" for how in "rw"]
    where, section = places(kind), 0
    while True:
        block = list(map(str.__add__, random.choices(accesses, k=BLOCK), random.choices(where, k=BLOCK)))
        for at in range(0, BLOCK, 40) if kind == "sections" else ():
            block[at] = f"test pair.{section}\n{block[at]}"
            section += 1
        yield block


def head(kind):
    return "trace 1\n" if kind == "sections" else f"trace 1\ntest {kind}\n"


def write_entries(kind, entries):
    sys.stdout.write(head(kind))
    for block in blocks(kind):
        sys.stdout.write("".join(block[:entries]))
        entries -= BLOCK
        if entries <= 0:
            return


def write_bytes(kind, size):
    """Ends in a section whose name fills what is left; its line takes 7 to 70 bytes."""
    sys.stdout.write(head(kind))
    left = size - len(head(kind))
    for block in blocks(kind):
        text = "".join(block)
        if len(text) + 7 > left:
            text = text[: text.rfind("\n", 0, left - 7) + 1]
            sys.stdout.write(f"{text}test {'x' * (left - len(text) - 6)}\n")
            return
        sys.stdout.write(text)
        left -= len(text)


def main(words):
    random.seed(1)
    if len(words) == 2 and words[0] in KINDS:
        write_entries(words[0], int(words[1]))
    elif len(words) == 3 and words[0] in KINDS and words[1] == "--bytes":
        write_bytes(words[0], int(words[2]))
    else:
        sys.exit(__doc__)


main(sys.argv[1:])
