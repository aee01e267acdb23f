#!/usr/bin/env python3
"""Makes what the program is to write. It shares the list of calls with the program, as text. Use: cases.py stdout"""
import os
import re
import sys

HOME = os.path.dirname(os.path.abspath(__file__))
sys.path.insert(0, os.path.join(HOME, "..", "..", "tests"))
import blocks
import model

BLOCK = b"TEX0abcd"


def short(refusal):
    """A length that exceeds 64 bits is written as 2^64 and what is left."""
    return "short " + ("2^64 + %d" % (refusal.value - 2**64) if refusal.value >= 2**64 else "%d" % refusal.value)


def taken(block, p, n):
    refusal, part, _ = model.call(model.take, block, p, n, declined=b"")
    return "take %s\npart [%s]\n" % (short(refusal) if refusal else "whole %d" % (p + n), part.decode())


def peeked(block, p, n):
    refusal, part, _ = model.call(model.take, block, p, n)
    return "peek %s\n" % (short(refusal) if refusal else model.number(part, 0, n))


def calls(pattern):
    """The arguments of the calls that have this form, in the program's order."""
    with open(os.path.join(HOME, "src", "main.rt"), encoding="utf-8") as source:
        return [[int(x, 0) for x in found] for found in re.findall("^    " + pattern, source.read(), re.M)]


def lines():
    for size, x, lo, hi in calls(r"field\(b\"bits_u(\d+) \", (0x[0-9a-f]+)u\d+, (\d+), (\d+)\)"):
        yield "bits_u%d %d\n" % (size, model.bits(size, x, lo, hi))
    for block in (BLOCK, b""):
        for p, n in calls(r"taken\(buf, (\d+), (\d+)\)"):
            yield taken(block, p, n)
    for size, p in calls(r"peeked\(peek::<u(\d+)>\(buf, (\d+)\)\)"):
        yield peeked(BLOCK, p, size // 8)
    for block in (BLOCK, b""):
        for p, n in calls(r"peeked\(nth_u16\(buf, (\d+), (\d+)\)\)"):
            yield peeked(block, p + 2 * n, 2)


if __name__ == "__main__":
    blocks.run(stdout=lambda: "".join(lines()).encode())
