#!/usr/bin/env python3
"""Makes the scripts of `track` that docs/PERFORMANCE.md speaks of, but for the mixed one.

usage: scripts.py FOLDER
"""
import random
import sys
from pathlib import Path

FILES = 100_000


def scripts():
    """The name and the lines of each script."""
    chance = random.Random(5)
    names = chance.sample(range(1 << 32), FILES)
    files = [f"file {chance.randint(1, 10**9)}" for _ in range(FILES)]
    small = [f"xorb {name} 1000" for name in range(1000)]
    yield "files", files + small + [f"dep {chance.randrange(FILES)} {chance.randrange(1000)} 1" for _ in range(99_000)]
    one = ["file 1000000000000"]
    xorbs = [f"xorb {name} {chance.randint(1, 10**6)}" for name in names]
    done = [f"done {name}" for name in names[:49_999]]
    yield "xorbs", one + xorbs + [f"dep 0 {chance.choice(names)} 5" for _ in range(50_000)] + done
    first = names[:1000]
    dependencies = [f"dep 0 {chance.choice(first)} 5" for _ in range(FILES)]
    yield "dependencies", one + [f"xorb {name} 1000" for name in first] + dependencies + ["status"] * 98_999
    parts = ["file 1000000"] * FILES + ["xorb 1 1000000000"]
    yield "parts", parts + [f"dep {number} 1 10" for number in chance.sample(range(FILES), FILES)]
    yield "descending", parts + [f"dep {number} 1 10" for number in reversed(range(FILES))]
    ascending = parts + [f"dep {number} 1 10" for number in range(FILES)]
    yield "progress", ascending + ["progress 1 7"] * 1000
    yield "long", ascending + ["progress 1 7"] * 10_000


def main():
    folder = Path(sys.argv[1])
    folder.mkdir(parents=True, exist_ok=True)
    for name, lines in scripts():
        (folder / f"{name}.txt").write_text("\n".join(lines) + "\n")


if __name__ == "__main__":
    main()
