#!/usr/bin/env python3
"""Writes the documents that bench/run times into a folder, the same bytes each time.

usage: inputs.py FOLDER

small_chunks.json  about 60 MiB: 300 xorbs of 1,700 chunks of 8 to 96 bytes; one file of 100,000 terms of 1 to 8 chunks
large_chunks.json  about 60 MiB: 4 xorbs of 60 chunks of 128 KiB; one file of all of them
tiny.json          one xorb of four chunks, and a file of them
one_chunk.json     about 14 MiB: 100,000 xorbs of one chunk of two bytes, and a file with one term of each
every_other.json   about 18 MiB: one xorb of 400,000 chunks of a byte; one file of every other chunk, a term each
whole_xorb.json    about 5 MiB: one xorb of 1,000,000 chunks of a byte; one file that is the whole xorb 100 times
short_chunks.json  about 57 MiB: 450 xorbs of 4,000 chunks of 15 bytes; one file of all of them
same_chunk.json    one xorb of one chunk of 100,000 bytes, and a file that is this chunk 1,000 times
"""
import json
import random
import sys
from pathlib import Path

FILE = "f" * 64
XORB = "1" * 64


def write(path, xorbs, terms):
    document = {"xorbs": xorbs, "files": {FILE: terms}}
    path.write_text(json.dumps(document, separators=(",", ":")))


def xorbs_of(draw, count, chunks, least, most):
    return {
        draw.randbytes(32).hex(): [draw.randbytes(draw.randint(least, most)).hex() for _ in range(chunks)]
        for _ in range(count)
    }


def some_terms(draw, xorbs, chunks, count):
    hashes = list(xorbs)
    for _ in range(count):
        start = draw.randrange(chunks - 8)
        yield [draw.choice(hashes), start, start + draw.randint(1, 8)]


def write_mixed(folder, draw):
    """Documents of few xorbs with many chunks, and the shortest one."""
    small = xorbs_of(draw, 300, 1_700, 8, 96)
    write(folder / "small_chunks.json", small, list(some_terms(draw, small, 1_700, 100_000)))
    large = xorbs_of(draw, 4, 60, 131_072, 131_072)
    write(folder / "large_chunks.json", large, [[xorb, 0, 60] for xorb in large])
    write(folder / "tiny.json", {XORB: ["48656c6c6f", "2c20", "776f726c64", "21"]}, [[XORB, 0, 4]])


def write_extreme(folder, draw):
    """Documents that have very many of one thing: xorbs, terms, chunks of a term, short chunks, uses of a chunk."""
    single = xorbs_of(draw, 100_000, 1, 2, 2)
    write(folder / "one_chunk.json", single, [[xorb, 0, 1] for xorb in single])
    count = 400_000
    letters = [draw.randbytes(1).hex() for _ in range(count)]
    write(folder / "every_other.json", {XORB: letters}, [[XORB, k, k + 1] for k in range(count) if k % 2 == 0])
    count = 1_000_000
    letters = [draw.randbytes(1).hex() for _ in range(count)]
    write(folder / "whole_xorb.json", {XORB: letters}, [[XORB, 0, count] for _ in range(100)])
    short = xorbs_of(draw, 450, 4_000, 15, 15)
    write(folder / "short_chunks.json", short, [[xorb, 0, 4_000] for xorb in short])
    write(folder / "same_chunk.json", {XORB: [draw.randbytes(100_000).hex()]}, [[XORB, 0, 1] for _ in range(1_000)])


def main(folder):
    draw = random.Random(20)
    write_mixed(folder, draw)
    write_extreme(folder, draw)


if __name__ == "__main__":
    main(Path(sys.argv[1]))
