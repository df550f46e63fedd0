#!/usr/bin/env python3
"""Compares the root behind each chunk of a shard with the one that the shard's next chunk begins with.

usage: check_roots.py FOLDER [HEIGHT]

FOLDER has the files of the archive that near_audit gather writes. Where the boundaries change at HEIGHT, the chunks
from there on are shards of their own. It writes a line for each chunk that doesn't follow, or else for each shard
where it begins and ends, and ends with status 0 where all follow.
"""
import os
import re
import sys


def places(folder):
    """The shard and the height of each chunk."""
    names = (re.fullmatch(r"(\d+)-(\d+)\.chunk", name) for name in os.listdir(folder))
    return sorted((int(found[2]), int(found[1])) for found in names if found)


def root_before(folder, height, shard):
    with open(os.path.join(folder, f"{height}-{shard}.chunk"), "rb") as file:
        return file.read(36)[4:].hex()


def root_behind(folder, height, shard):
    with open(os.path.join(folder, f"{height}-{shard}.lines"), encoding="ascii") as file:
        word, own_height, own_shard, root = file.readline().split()[:4]
    if (word, own_height, own_shard) != ("chunk", str(height), str(shard)):
        sys.exit(f"{height}-{shard}.lines is of another chunk")
    return root


def main():
    folder, turn = sys.argv[1], int(sys.argv[2]) if len(sys.argv) > 2 else None
    ends, told, wrong = {}, [], 0
    for shard, height in places(folder):
        row = (shard, turn is not None and height >= turn)
        before = root_before(folder, height, shard)
        if row not in ends:
            told.append((row, height, before))
        elif ends[row][1] != before:
            print(f"{height}-{shard} begins with {before}, {ends[row][0]}-{shard} ends with {ends[row][1]}")
            wrong += 1
        ends[row] = (height, root_behind(folder, height, shard))
    if wrong or not told:
        sys.exit(1)
    for row, height, before in told:
        print(f"shard {row[0]}: from {before} before {height} to {ends[row][1]} behind {ends[row][0]}")


if __name__ == "__main__":
    main()
