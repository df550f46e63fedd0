#!/usr/bin/env python3
"""Measures the tree of a chunk's items, and the proof of one of them.

usage: bench/tree.py [--items N] [--program PATH]

The items are receipts that left, of 68 bytes each. It prints the processor seconds for the root of N (1,000,000) items
and for the proof of the one in the middle, each the least of three runs less the least of three that only make the
chunk, and the bytes an item that the process holds above the chunk's.

Build the program first: cd crates/near_bench && rt run.
"""
import argparse
import os
import subprocess
import sys


def least_run(program, making, items, turns):
    """The least processor time of three runs, in seconds, and their greatest memory, in KiB."""
    times, memory = [], 0
    for _ in range(3):
        child = subprocess.Popen([program, "tree", making, str(items), str(turns)], stdout=subprocess.DEVNULL)
        _, status, used = os.wait4(child.pid, 0)
        if status != 0:
            sys.exit(f"tree {making} {items} {turns} ended with {status}")
        times.append(used.ru_utime + used.ru_stime)
        memory = max(memory, used.ru_maxrss)
    return min(times), memory


def main():
    parser = argparse.ArgumentParser(description=__doc__, formatter_class=argparse.RawDescriptionHelpFormatter)
    parser.add_argument("--items", type=int, default=1_000_000)
    parser.add_argument("--program", default="crates/near_bench/out/near_bench")
    given = parser.parse_args()
    print("| Made | Seconds | Bytes an item |\n|---|---|---|")
    for making in ["root", "proof"]:
        before, held = least_run(given.program, making, given.items, 0)
        behind, most = least_run(given.program, making, given.items, 1)
        print(f"| {making} | {behind - before:.2f} | {(most - held) * 1024 / given.items:.0f} |")


if __name__ == "__main__":
    main()
