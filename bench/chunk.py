#!/usr/bin/env python3
"""Measures a chunk without the state: gathering it in a run, and running it again.

usage: bench/chunk.py [--program PATH] [--accounts N] [--blocks N] [--transfers N] [--runs N]

Build the program first: cd crates/near_serial && rt run. The chain has N accounts (100,000) with a key each in one shard and
N blocks (4) of N transfers (10), from each account to the next one in turn; the chunk is the last one. Each number is the
least of N runs (3). The aims: gathering within 1.2 of the run, a file below 60 KB, and 20 ms for running it again, of a chunk
that touches ten of 100,000 accounts.
"""
import argparse
import os
import subprocess
import sys
import tempfile

from parts import least
from runs import built, write_files


def main():
    parser = argparse.ArgumentParser()
    parser.add_argument("--program")
    parser.add_argument("--accounts", type=int, default=100_000)
    parser.add_argument("--blocks", type=int, default=4)
    parser.add_argument("--transfers", type=int, default=10)
    parser.add_argument("--runs", type=int, default=3)
    arguments = parser.parse_args()
    program = built(arguments.program, "near_serial")
    with tempfile.TemporaryDirectory() as folder:
        files = [os.path.join(folder, part) for part in ("genesis", "blocks")]
        write_files(files + [""], (arguments.accounts, arguments.blocks, arguments.transfers, 1), None)
        gather = ["gather", "free"] + files + [str(arguments.blocks), "0"]
        chunk = os.path.join(folder, "chunk")
        with open(chunk, "wb") as out:
            subprocess.run([program] + gather, stdout=out, check=True)
        again = subprocess.run([program, "recheck", "free", chunk], capture_output=True, check=True).stdout
        report = subprocess.run([program, "run", "free"] + files, capture_output=True, check=True).stdout
        if not again or again not in report:
            sys.exit("the chunk that is run again isn't the report's")
        print("| Command | Seconds | MiB |")
        print("|---|---|---|")
        for what, words in (
            ("`run`", ["run", "free"] + files),
            ("`gather`", gather),
            (f"`recheck`, {os.path.getsize(chunk):,} bytes", ["recheck", "free", chunk]),
        ):
            taken, held, _ = least(program, words, folder, arguments.runs)
            print(f"| {what} | {taken:.3f} | {held:.0f} |", flush=True)


if __name__ == "__main__":
    main()
