#!/usr/bin/env python3
"""Measures the machine on a loop over whole numbers, and prints how many instructions it runs in a second.

usage: bench/machine.py [--rounds N] [--tries N] [--program PATH] [--interp PATH] [--write FILE]

The module has one method, run, whose loop adds, multiplies and counts down: 14 instructions a round, the loop's own
among them. Build the program first: cd crates/near_bench && rt run. The time is the processor time of a run less that
of a run of one round, the least of the tries each. Where wasm-interp of Debian's package wabt is there, it runs the
same module beside it.
"""
import argparse
import os
import resource
import shutil
import subprocess
import sys
import tempfile

from module import const64, name, section, unsigned, vector


def module(rounds):
    # local 0 counts down, local 1 sums
    get, put, tee = b"\x20", b"\x21", b"\x22"
    code = const64(rounds) + put + b"\x00" + b"\x03\x40"
    code += get + b"\x01" + get + b"\x00" + b"\x7c" + const64(3) + b"\x7e" + put + b"\x01"
    code += get + b"\x00" + const64(1) + b"\x7d" + tee + b"\x00" + b"\x50\x45" + b"\x0d\x00" + b"\x0b"
    whole = vector([b"\x02\x7e"]) + code + b"\x0b"
    return b"\0asm\1\0\0\0" + b"".join([
        section(1, vector([b"\x60\x00\x00"])),
        section(3, vector([unsigned(0)])),
        section(7, vector([name("run") + b"\x00\x00"])),
        section(10, vector([unsigned(len(whole)) + whole])),
    ])


def once(words):
    begin = resource.getrusage(resource.RUSAGE_CHILDREN)
    done = subprocess.run(words, check=True, stdout=subprocess.PIPE)
    end = resource.getrusage(resource.RUSAGE_CHILDREN)
    return end.ru_utime + end.ru_stime - begin.ru_utime - begin.ru_stime, done.stdout.decode()


def seconds(one, many, tries):
    return min(once(many)[0] for _ in range(tries)) - min(once(one)[0] for _ in range(tries))


def report(label, count, taken):
    print(f"{label}: {count:,} instructions, {taken:.2f} s, {count / taken / 1e6:.1f} million a second, "
          f"{taken / count * 1e9:.1f} ns each")


def main():
    here = os.path.dirname(os.path.abspath(__file__))
    parser = argparse.ArgumentParser()
    parser.add_argument("--rounds", type=int, default=4_000_000)
    parser.add_argument("--tries", type=int, default=3)
    parser.add_argument("--program", default=os.path.join(here, "..", "crates", "near_bench", "out", "near_bench"))
    parser.add_argument("--interp", default=shutil.which("wasm-interp"))
    parser.add_argument("--write")
    arguments = parser.parse_args()
    if arguments.write:
        with open(arguments.write, "wb") as out:
            out.write(module(arguments.rounds))
    if not os.path.exists(arguments.program):
        sys.exit("no program: build it first (cd crates/near_bench && rt run)")
    with tempfile.TemporaryDirectory() as folder:
        paths = [os.path.join(folder, part) for part in ("one.wasm", "many.wasm")]
        for path, rounds in zip(paths, (1, arguments.rounds)):
            with open(path, "wb") as out:
                out.write(module(rounds))
        one, many = ([arguments.program, "machine", path, "run", "1"] for path in paths)
        count = int(once(many)[1]) - int(once(one)[1])
        report("machine", count, seconds(one, many, arguments.tries))
        if arguments.interp:
            one, many = ([arguments.interp, path, "--run-all-exports"] for path in paths)
            report("wasm-interp", count, seconds(one, many, arguments.tries))
    print(f"load {os.getloadavg()[0]:.1f} on {os.cpu_count()} processors")


main()
