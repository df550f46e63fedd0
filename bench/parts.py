#!/usr/bin/env python3
"""Measures the parts of a state: cutting them out of a run, checking one, and joining all.

usage: bench/parts.py [--program PATH] [--accounts N] [--parts COUNT] [--cut N] [--runs N]

Build the program first: cd crates/near_serial && rt run. The state is that of N accounts (100,000) with a key each behind one
block of ten transfers, in COUNT parts (100). All parts are made once. Each number is the least of N runs (3), and of the first
parts (5) that are cut. The aims: a part within the run and 2 s; a part of 1 MB checked within 100 ms; all joined within twice
the run, which makes the first root over these entries, with at most three times the bytes of the files in memory.
"""
import argparse
import os
import subprocess
import sys
import tempfile

from runs import built, timed, write_files


def cut(program, files, count, number):
    return ["part", "free"] + files + ["1", "0", str(count), str(number)]


def write_parts(program, files, count, folder):
    """The files of all parts, and their bytes together."""
    total = 0
    for number in range(count):
        path = os.path.join(folder, f"part{number}")
        with open(path, "wb") as out:
            subprocess.run([program] + cut(program, files, count, number), stdout=out, check=True)
        total += os.path.getsize(path)
    return total


def root_of(program, files):
    for line in subprocess.run([program, "run", "free"] + files, capture_output=True, check=True).stdout.split(b"\n"):
        words = line.decode().split(" ")
        if words[0] == "chunk":
            return words[3]
    sys.exit("the report has no chunk")


def least(program, words, folder, runs):
    return min((timed(program, words, folder) for _ in range(runs)), key=lambda run: run[0])


def main():
    parser = argparse.ArgumentParser()
    parser.add_argument("--program")
    parser.add_argument("--accounts", type=int, default=100_000)
    parser.add_argument("--parts", type=int, default=100)
    parser.add_argument("--cut", type=int, default=5)
    parser.add_argument("--runs", type=int, default=3)
    arguments = parser.parse_args()
    program = built(arguments.program, "near_serial")
    with tempfile.TemporaryDirectory() as folder:
        files = [os.path.join(folder, part) for part in ("genesis", "blocks")]
        write_files(files + [""], (arguments.accounts, 1, 10, 1), None)
        root = root_of(program, files)
        total = write_parts(program, files, arguments.parts, folder)
        first = os.path.join(folder, "part0")
        rows = [("`run`", ["run", "free"] + files)]
        rows += [(f"`part` {number}", cut(program, files, arguments.parts, number)) for number in range(min(arguments.cut, arguments.parts))]
        rows.append((f"`checkpart`, {os.path.getsize(first):,} bytes", ["checkpart", root, first]))
        rows.append((f"`joinparts`, {total:,} bytes", ["joinparts", root, str(arguments.parts), os.path.join(folder, "part")]))
        print("| Command | Seconds | MiB |")
        print("|---|---|---|")
        for what, words in rows:
            taken, held, _ = least(program, words, folder, arguments.runs)
            print(f"| {what} | {taken:.3f} | {held:.0f} |", flush=True)


if __name__ == "__main__":
    main()
