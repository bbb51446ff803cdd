#!/usr/bin/env python3
"""Tells what `wcrun load START N` is to write, counted apart from it: G.711 by its rules, and PCM as it is.

usage: load-sum.py START N
"""
import struct
import sys


def mu_law(code):
    code = ~code & 0xFF
    magnitude = (((code & 0x0F) << 3) + 0x84 << ((code & 0x70) >> 4)) - 0x84
    return -magnitude if code & 0x80 else magnitude


def a_law(code):
    code ^= 0x55
    segment = (code & 0x70) >> 4
    magnitude = ((code & 0x0F) << 4) + 8
    if segment > 0:
        magnitude = magnitude + 0x100 << segment - 1
    return magnitude if code & 0x80 else -magnitude


def sixteen(table):
    return [sum(struct.pack("<h", table(code))) for code in range(256)]


def main():
    start, chunks = int(sys.argv[1]), int(sys.argv[2])
    # the sum of an output's bytes for each byte of a chunk, and how many bytes that gives
    decoders = [(sixteen(mu_law), 2), (sixteen(a_law), 2), (range(256), 1), (range(256), 1)]
    state, total, count = start, 0, 0
    for sums, width in decoders:
        for _ in range(160 * chunks):
            state = (state * 6364136223846793005 + 1442695040888963407) % (1 << 64)
            total += sums[state >> 56]
            count += width
    print(f"load {start} {chunks}\noutputs {4 * chunks}\nbytes {count}\nsum {total}")


main()
