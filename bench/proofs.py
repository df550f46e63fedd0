#!/usr/bin/env python3
"""Measures what the roots of a chain's chunks, and a proof of one item, cost beside the run of the same chain.

usage: bench/proofs.py [--program PATH] [--chain NUMBER SHARDS BLOCKS] [--runs N]

Build the program first: cd crates/near_serial && rt run. The chain is the one that `gen NUMBER SHARDS BLOCKS` generates
(7 4 200), written to files; that it is that chain is seen by the digest that `gen` writes. Each number is the least of N runs
(5), which take turns. The aims: `roots` within 1.5 times the run, and `prove` too.
"""
import argparse
import hashlib
import os
import struct
import subprocess
import sys
import tempfile

from runs import built, counted, timed


def unsigned(number):
    out = bytearray()
    while number > 127:
        out.append(number & 127 | 128)
        number >>= 7
    return bytes(out + bytes([number]))


def signed(number):
    out = bytearray()
    while not -64 <= number < 64:
        out.append(number & 127 | 128)
        number >>= 7
    return bytes(out + bytes([number & 127]))


def const(*numbers):
    return b"".join(b"\x42" + signed(number) for number in numbers)


def call(number):
    return b"\x10" + unsigned(number)


def section(number, data):
    return bytes([number]) + unsigned(len(data)) + data


def body(code):
    data = b"\x00" + code + b"\x0b"
    return unsigned(len(data)) + data


I64, IF, ELSE, END, DROP, ADD = b"\x7e", b"\x04\x40", b"\x05", b"\x0b", b"\x1a", b"\x7c"
NAMES = ["input", "read_register", "current_account_id", "value_return", "promise_result"]
NAMES += ["storage_read", "storage_write", "promise_create", "promise_then"]
# Of each type, how many parameters it has and how many results.
TYPES = [(0, 0), (1, 0), (2, 0), (1, 1), (2, 1), (3, 1), (5, 1), (8, 1), (9, 1)]
IMPORTED = [1, 2, 1, 2, 4, 5, 6, 7, 8]

SEND = const(0) + call(0) + const(-1, 0, 4, 0, 0, 0, 64, 500_000) + call(7) + const(1) + call(2)
SEND += const(-1, 1, 4, 8, 0, 0, 64, 500_000) + call(8) + DROP
COUNT = b"\x41\x20\x41\x20\x29\x03\x00" + const(1) + ADD + b"\x37\x03\x00"
RECV = const(1, 16, 2) + call(5) + b"\x50" + IF + ELSE + const(2, 32) + call(1) + END + COUNT
RECV += const(1, 16, 8, 32, 3) + call(6) + DROP + const(8, 32) + call(3)
DONE = const(0, 4) + call(4) + const(1) + b"\x52" + IF + b"\x00" + END


def contract():
    """The code of the contract accounts."""
    fillers = [b"\x20\x00" + b"".join(const(64 + j + i) + ADD for i in range(20)) for j in range(700)]
    kinds = b"".join(b"\x60" + unsigned(n) + I64 * n + unsigned(m) + I64 * m for n, m in TYPES)
    named = [b"\x03env" + unsigned(len(name)) + name.encode() + b"\x00" + unsigned(kind) for name, kind in zip(NAMES, IMPORTED)]
    exports = b"".join(b"\x04" + name + b"\x00" + unsigned(9 + k) for k, name in enumerate([b"send", b"recv", b"done"]))
    data = b"recv" + bytes(4) + b"done" + bytes(4) + b"n"
    code = b"\x00asm\x01\x00\x00\x00"
    code += section(1, unsigned(len(TYPES)) + kinds) + section(2, unsigned(len(named)) + b"".join(named))
    code += section(3, unsigned(703) + b"\x00" * 3 + b"\x03" * 700) + section(5, b"\x01\x00\x01")
    code += section(7, b"\x03" + exports)
    code += section(10, unsigned(703) + b"".join(map(body, [SEND, RECV, DONE] + fillers)))
    return code + section(11, b"\x01\x00\x41\x00\x0b" + unsigned(len(data)) + data)


def user(shard, number):
    return b"s%02d-u%d" % (shard, number)


def token(shard):
    return b"s%02d-tok" % shard


def key(shard, number):
    return b"\0" + bytes([shard, number]) + bytes(30)


def account(name, code, usage):
    amount = (10**24).to_bytes(16, "little")
    return b"\0" + counted(name) + amount + bytes(16) + code + struct.pack("<Q", usage)


def genesis(shards):
    code = contract()
    entries = []
    for shard in range(shards):
        for number in range(8):
            name = user(shard, number)
            entries.append(account(name, bytes(32), 182))
            entries.append(b"\2" + counted(name) + key(shard, number) + bytes(8) + b"\1")
        entries.append(account(token(shard), hashlib.sha256(code).digest(), 100 + len(code)))
        entries.append(b"\1" + counted(token(shard)) + counted(code))
    boundaries = b"".join(counted(b"s%02d" % shard) for shard in range(1, shards))
    return b"NRG1" + struct.pack("<I", shards - 1) + boundaries + struct.pack("<I", len(entries)) + b"".join(entries)


class Draws:
    def __init__(self, start):
        self.state = start

    def below(self, bound):
        self.state = (self.state * 6364136223846793005 + 1442695040888963407) % 2**64
        return (self.state >> 33) % bound


def transaction(shard, number, nonce, receiver, action):
    head = counted(user(shard, number)) + key(shard, number) + struct.pack("<Q", nonce)
    return head + counted(receiver) + bytes(32) + struct.pack("<I", 1) + action


def chunk(draws, shard, shards, nonces):
    if draws.below(16) == 0:
        return b"\0"
    parts = [b"\1" + struct.pack("<I", 8)]
    for number in range(8):
        nonces[shard][number] += 1
        there = draws.below(shards)
        if number < 6:
            receiver = user(there, draws.below(8))
            action = b"\3" + (1 + draws.below(1000)).to_bytes(16, "little")
        else:
            receiver = token(shard)
            action = b"\2" + counted(b"send") + counted(token(there)) + struct.pack("<Q", 2_000_000) + bytes(16)
        parts.append(transaction(shard, number, nonces[shard][number], receiver, action))
    return b"".join(parts)


def blocks(start, shards, heights):
    draws = Draws(start)
    nonces = [[0] * 8 for _ in range(shards)]
    parts = [b"NRB1" + struct.pack("<I", heights)]
    for height in range(1, heights + 1):
        parts.append(struct.pack("<QQI", height, height * 10**9, shards))
        parts += [chunk(draws, shard, shards, nonces) for shard in range(shards)]
    return b"".join(parts)


def write_files(folder, chain):
    start, shards, heights = chain
    for name, data in (("genesis", genesis(shards)), ("blocks", blocks(start, shards, heights))):
        with open(os.path.join(folder, name), "wb") as out:
            out.write(data)
    here = os.path.dirname(os.path.abspath(__file__))
    return [os.path.join(here, "..", "examples", "config", "generated.json")] + [os.path.join(folder, name) for name in ("genesis", "blocks")]


def is_chain(program, files, chain):
    """Whether the report over the files is the one that `gen` has the digest of."""
    report = subprocess.run([program, "run"] + files, capture_output=True, check=True).stdout
    short = subprocess.run([program, "gen"] + [str(number) for number in chain], capture_output=True, check=True).stdout
    return b"digest " + hashlib.sha256(report).hexdigest().encode() in short.splitlines()


def last_item(program, files):
    """A place in the last chunk that has an outcome."""
    lines = subprocess.run([program, "run"] + files, capture_output=True, check=True).stdout.split(b"\n")
    found = None
    for line in lines:
        words = line.decode().split(" ")
        if words[0] == "chunk":
            there = words[1:3]
        elif words[0] in ("tx", "run"):
            found = there
    return found + ["outcome", "0"]


def main():
    parser = argparse.ArgumentParser()
    parser.add_argument("--program")
    parser.add_argument("--chain", type=int, nargs=3, default=[7, 4, 200])
    parser.add_argument("--runs", type=int, default=5)
    arguments = parser.parse_args()
    program = built(arguments.program, "near_serial")
    with tempfile.TemporaryDirectory() as folder:
        files = write_files(folder, arguments.chain)
        if not is_chain(program, files, arguments.chain):
            sys.exit("the files aren't the generated chain")
        words = {"run": ["run"] + files, "roots": ["roots"] + files, "prove": ["prove"] + files + last_item(program, files)}
        least = {what: float("inf") for what in words}
        for _ in range(arguments.runs):
            for what in words:
                least[what] = min(least[what], timed(program, words[what], folder)[0])
    print("| Command | Seconds | To the run |")
    print("|---|---|---|")
    for what, taken in least.items():
        print(f"| `{what}` | {taken:.3f} | {taken / least['run']:.2f} |")


if __name__ == "__main__":
    main()
