#!/usr/bin/env python3
"""How fast blocks are encoded and decoded: a million numbers in each encoding, beside a plain loop over the same numbers.

    bench/blocks.py        needs crates/block_cases to be built: (cd crates/block_cases && rt run </dev/null)

A block of 1,024 numbers of the kind that the encoding is for is taken a thousand times; MB count eight bytes a number. The process
without the work is taken off.
"""
import os
import subprocess
import sys
import time

TOP = os.path.dirname(os.path.dirname(os.path.abspath(__file__)))
PROGRAM = os.path.join(TOP, "crates/block_cases/out/block_cases")
sys.path.insert(0, os.path.join(TOP, "tools"))
sys.dont_write_bytecode = True
sys.argv = sys.argv[:1]
import block_cases  # noqa: E402

TIMES = 1000


def seconds(line):
    best = None
    for _ in range(5):
        start = time.time()
        subprocess.run([PROGRAM], input=(line + "\n").encode(), stdout=subprocess.DEVNULL, check=True)
        best = min(best or 1e9, time.time() - start)
    return best


def rate(what, name, block):
    spent = seconds(f"{what} {name} {TIMES} {block}") - seconds(f"{what} {name} 0 {block}")
    return 1024 * TIMES * 8 / 1e6 / max(spent, 1e-9)


def main():
    print(f"{'':<12}{'encode':>12}{'decode':>12}{'plain loop':>14}   MB/s")
    for name in ("RLE", "DELTAVAL", "BLOCK_DICT", "PLAIN", "AUTO"):
        block = block_cases.speed(name)
        print(f"{name:<12}{rate('encode', name, block):>12.0f}{rate('decode', name, block):>12.0f}{rate('walk', '-', block):>14.0f}")
    constant = block_cases.plain([7] * 1024).hex()
    print(f"a constant block, RLE: encode {rate('encode', 'RLE', constant):.0f}, decode {rate('decode', 'RLE', constant):.0f} MB/s")


main()
