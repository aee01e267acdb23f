#!/usr/bin/env python3
"""Makes the block that the program is run on, document 01's sample, and its listing. Use: cases.py stdin|stdout"""
import os
import sys

sys.path.insert(0, os.path.join(os.path.dirname(os.path.abspath(__file__)), "..", "..", "tests"))
import blocks
import model

if __name__ == "__main__":
    blocks.run(stdin=lambda: blocks.SAMPLE, stdout=lambda: model.listing(blocks.SAMPLE))
