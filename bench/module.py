#!/usr/bin/env python3
"""Measures decoding and validating, and prints nanoseconds for a byte of the module.

usage: bench/module.py [--turns N] [--fillers N] [--program PATH] [--write FILE] [MODULE]

With no MODULE it makes one of some 60,000 bytes, in the form of a token contract: nine functions of the host, three
methods, and 700 functions that only fill, or as many as --fillers says (40,000 make 4.1 MB; a module has at most 50,000
functions); --write keeps it in a file. Build the program first: cd crates/near_bench && rt run. The number is the
processor time of a run with N turns less that of a run with none, the least of three tries each, over N and over the
bytes.
"""
import argparse
import os
import resource
import subprocess
import sys
import tempfile

FILLERS = 700


def unsigned(number):
    out = bytearray()
    while True:
        low, number = number & 127, number >> 7
        if number == 0:
            out.append(low)
            return bytes(out)
        out.append(low | 128)


def signed(number):
    out = bytearray()
    while True:
        low, number = number & 127, number >> 7
        if (number == 0 and low < 64) or (number == -1 and low >= 64):
            out.append(low)
            return bytes(out)
        out.append(low | 128)


def vector(items):
    return unsigned(len(items)) + b"".join(items)


def name(text):
    return unsigned(len(text)) + text.encode()


def section(number, contents):
    return bytes([number]) + unsigned(len(contents)) + contents


def function_type(params, results):
    return b"\x60" + vector([b"\x7e"] * params) + vector([b"\x7e"] * results)


def const64(number):
    return b"\x42" + signed(number)


def const32(number):
    return b"\x41" + signed(number)


def call(function):
    return b"\x10" + unsigned(function)


def body(code):
    whole = unsigned(0) + code + b"\x0b"
    return unsigned(len(whole)) + whole


def consts(*numbers):
    return b"".join(const64(number) for number in numbers)


def module(count):
    types = [(0, 0), (1, 0), (2, 0), (1, 1), (2, 1), (3, 1), (5, 1), (8, 1), (9, 1)]
    imports = [
        ("input", 1), ("read_register", 2), ("current_account_id", 1), ("value_return", 2), ("promise_result", 4),
        ("storage_read", 5), ("storage_write", 6), ("promise_create", 7), ("promise_then", 8),
    ]
    send = consts(0) + call(0) + consts(-1, 0, 4, 0, 0, 0, 64, 500000) + call(7)
    send += consts(1) + call(2) + consts(-1, 1, 4, 8, 0, 0, 64, 500000) + call(8) + b"\x1a"
    recv = consts(1, 16, 2) + call(5) + b"\x50\x04\x40\x05" + consts(2, 32) + call(1) + b"\x0b"
    recv += const32(32) + const32(32) + b"\x29\x03\x00" + consts(1) + b"\x7c\x37\x03\x00"
    recv += consts(1, 16, 8, 32, 3) + call(6) + b"\x1a" + consts(8, 32) + call(3)
    done = consts(0, 4) + call(4) + consts(1) + b"\x52\x04\x40\x00\x0b"
    fillers = [
        body(b"\x20\x00" + b"".join(const64(64 + number + place) + b"\x7c" for place in range(20)))
        for number in range(count)
    ]
    exports = [name(text) + b"\x00" + unsigned(9 + place) for place, text in enumerate(("send", "recv", "done"))]
    segment = unsigned(0) + const32(0) + b"\x0b" + unsigned(17) + b"recv\0\0\0\0done\0\0\0\0n"
    return b"\0asm\1\0\0\0" + b"".join([
        section(1, vector([function_type(*kind) for kind in types])),
        section(2, vector([name("env") + name(text) + b"\x00" + unsigned(kind) for text, kind in imports])),
        section(3, vector([unsigned(0)] * 3 + [unsigned(3)] * count)),
        section(5, vector([b"\x00\x01"])),
        section(7, vector(exports)),
        section(10, vector([body(send), body(recv), body(done)] + fillers)),
        section(11, vector([segment])),
    ])


def seconds(program, path, turns):
    least = None
    for _ in range(3):
        begin = resource.getrusage(resource.RUSAGE_CHILDREN)
        subprocess.run([program, "module", path, str(turns)], check=True, stdout=subprocess.DEVNULL)
        end = resource.getrusage(resource.RUSAGE_CHILDREN)
        taken = end.ru_utime + end.ru_stime - begin.ru_utime - begin.ru_stime
        least = taken if least is None else min(least, taken)
    return least


def main():
    here = os.path.dirname(os.path.abspath(__file__))
    parser = argparse.ArgumentParser()
    parser.add_argument("--turns", type=int, default=200)
    parser.add_argument("--fillers", type=int, default=FILLERS)
    parser.add_argument("--program", default=os.path.join(here, "..", "crates", "near_bench", "out", "near_bench"))
    parser.add_argument("--write")
    parser.add_argument("module", nargs="?")
    arguments = parser.parse_args()
    if arguments.write:
        with open(arguments.write, "wb") as out:
            out.write(module(arguments.fillers))
    if not os.path.exists(arguments.program):
        sys.exit("no program: build it first (cd crates/near_bench && rt run)")
    with tempfile.TemporaryDirectory() as folder:
        path = arguments.module or os.path.join(folder, "module.wasm")
        if not arguments.module:
            with open(path, "wb") as out:
                out.write(module(arguments.fillers))
        size = os.path.getsize(path)
        taken = seconds(arguments.program, path, arguments.turns) - seconds(arguments.program, path, 0)
    print(f"{size} bytes, {taken / arguments.turns / size * 1e9:.1f} ns a byte")


if __name__ == "__main__":
    main()
