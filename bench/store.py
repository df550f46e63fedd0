#!/usr/bin/env python3
"""Measures the operations of both stores at rising sizes, and prints them as tables.

usage: bench/store.py [--store plain|trie] [--turns N] [--program PATH]
       bench/store.py --aims [ROUNDS] [--program PATH]

`set` puts values without a checkpoint and never asks for a root, so the store of nodes works them in as they
become many; `behind` is one of fifty thousand values set behind a checkpoint, with its taking back, so that all of
them wait.

The second table of a store has roots, over flat keys of four bytes: milliseconds for the first root, microseconds
for one change with its root behind that, microseconds for each of a thousand changes with one root behind them, and
the greatest memory of a run in MiB, of the filling alone and with the first root. Behind these come nested keys (a,
aa, aaa and so on), each with a short value: milliseconds to fill the store and to compute the root, and the memory.

With `--aims` both stores run in turns at a million keys, ROUNDS (5) times each, and the least times are compared: get,
behind and set; then one change with its root at ten thousand and at a million keys; then the memory of each key.

Build the program first: cd crates/near_bench && rt run. Each number is the processor time of one operation in
nanoseconds: the time of a run with N of them less that of a run that only fills the store and computes its root, the
least of three tries each, over N. N is some five times the keys or more, so that the filling doesn't hide the
operations.
"""
import argparse
import os
import subprocess
import sys

SIZES = [1_000, 10_000, 100_000, 1_000_000]
OPERATIONS = ["get", "behind", "set", "remove", "keep", "back"]
# How many values one turn sets, where they aren't one.
SETS = {"behind": 50_000}
NESTED = [1_000, 3_000, 11_200]
# A change with its root costs the plain store the whole state.
CHANGES = {"plain": 5, "trie": 200_000}
WORKS = {"plain": 5, "trie": 300}


def least_run(program, *words, tries=3):
    """The least processor time of some runs, in seconds, and their greatest memory, in MiB."""
    times, memory = [], 0
    for _ in range(tries):
        child = subprocess.Popen([program, *map(str, words)], stdout=subprocess.DEVNULL)
        _, status, used = os.wait4(child.pid, 0)
        times.append(used.ru_utime + used.ru_stime)
        if status != 0:
            sys.exit(f"{words} ended with {status}")
        memory = max(memory, used.ru_maxrss // 1024)
    return min(times), memory


def operations(program, store, least_turns):
    print(f"\n{store}\n\n| Keys | " + " | ".join(OPERATIONS) + " |")
    print("|---|" + "---|" * len(OPERATIONS))
    for keys in SIZES:
        turns = max(least_turns, 5 * keys)
        fill, _ = least_run(program, store, "root", keys, 0)
        row = []
        for operation in OPERATIONS:
            sets = SETS.get(operation, 1)
            done = max(1, turns // sets)
            taken, _ = least_run(program, store, operation, keys, done)
            row.append(f"{(taken - fill) / done / sets * 1e9:.0f}")
        print(f"| {keys:,} | " + " | ".join(row) + " |", flush=True)


def roots(program, store):
    print("\n| Keys | first root, ms | change and root, µs | one of a thousand, µs | MiB filled | MiB with the root |")
    print("|---|---|---|---|---|---|")
    for keys in SIZES:
        filled, before = least_run(program, store, "fill", keys, 0)
        first, memory = least_run(program, store, "root", keys, 0)
        changed, _ = least_run(program, store, "change", keys, CHANGES[store])
        worked, _ = least_run(program, store, "working", keys, WORKS[store])
        row = [f"{(first - filled) * 1e3:.0f}", f"{(changed - first) / CHANGES[store] * 1e6:.1f}",
               f"{(worked - first) / WORKS[store] * 1e3:.1f}", str(before), str(memory)]
        print(f"| {keys:,} flat | " + " | ".join(row) + " |", flush=True)
    for keys in NESTED:
        whole, memory = least_run(program, store, "nested", keys, 0)
        print(f"| {keys:,} nested, filled and root | {whole * 1e3:.0f} | | | | {memory} |", flush=True)


def aims(program, rounds):
    keys, sets, changes = 1_000_000, 2_000_000, 400_000
    many = [(store, operation, keys, sets // SETS.get(operation, 1))
            for operation in ["get", "behind", "set"] for store in ["plain", "trie"]]
    single = [("trie", "change", size, changes) for size in [10_000, keys]]
    runs = [("plain", "root", keys, 0), ("trie", "root", keys, 0), ("trie", "root", 10_000, 0), *many, *single]
    seen = {run: [] for run in runs}
    for _ in range(rounds):
        for run in runs:
            seen[run].append(least_run(program, *run, tries=1))

    def each(run, turns):
        return (min(seen[run])[0] - min(seen[*run[:1], "root", run[2], 0])[0]) / turns

    for plain, nodes in zip(many[::2], many[1::2]):
        first, second = each(plain, sets) * 1e9, each(nodes, sets) * 1e9
        print(f"{plain[1]}: plain {first:.0f} ns, nodes {second:.0f} ns, ratio {second / first:.2f}")
    few, all_keys = [each(run, changes) * 1e6 for run in single]
    print(f"change and root: {few:.1f} µs at 10,000 keys, {all_keys:.1f} at 1,000,000, ratio {all_keys / few:.2f}")
    held = max(memory for _, memory in seen[runs[1]])
    print(f"with the first root: {held} MiB, {held * 2**20 / keys - 5:.0f} bytes a key above the values")


def main():
    here = os.path.dirname(os.path.abspath(__file__))
    parser = argparse.ArgumentParser()
    parser.add_argument("--store", choices=["plain", "trie"])
    parser.add_argument("--turns", type=int, default=300_000)
    parser.add_argument("--aims", type=int, nargs="?", const=5)
    parser.add_argument("--program", default=os.path.join(here, "..", "crates", "near_bench", "out", "near_bench"))
    arguments = parser.parse_args()
    if not os.path.exists(arguments.program):
        sys.exit("no program: build it first (cd crates/near_bench && rt run)")
    if arguments.aims:
        aims(arguments.program, arguments.aims)
        return
    for store in [arguments.store] if arguments.store else ["plain", "trie"]:
        operations(arguments.program, store, arguments.turns)
        roots(arguments.program, store)


main()
