#!/usr/bin/env python3
"""Makes what the program is to write. It shares the list of words with the program, as text. Use: cases.py stdout"""
import os
import re
import sys

HOME = os.path.dirname(os.path.abspath(__file__))
sys.path.insert(0, os.path.join(HOME, "..", "..", "tests"))
import blocks
import model
from model import S, T


def line(word):
    return model.line(
        "%08x" % word, "offset", model.offset(word), "repeat", model.repeat(word, S), model.repeat(word, T),
        "mirror", model.mirror(word, S), model.mirror(word, T), "wrap", model.wrap(word, S), model.wrap(word, T),
        "size", model.width(word), model.height(word), "format", model.form(word), "color0", model.clear0(word), "transform", model.transform(word),
        "bits", model.bits_per_texel(word), "palette", int(model.needs_palette(word)),
        "data", model.first_length(word), model.second_length(word), "alpha", model.alpha(word))


def words():
    with open(os.path.join(HOME, "src", "main.rt"), encoding="utf-8") as source:
        table = re.search(r"const WORDS.*?\];", source.read(), re.S).group()
    return [int(text.replace("_", ""), 16) for text in re.findall("0x([0-9a-f_]+)", table)]


if __name__ == "__main__":
    blocks.run(stdout=lambda: b"".join(map(line, words())))
