#!/usr/bin/env python3
"""Runs the commands that walk a trie on files of few texts that stand at many places.

usage: hostile/repeated.py [--programs FOLDER] [--only WORD] [--levels N] [--room GIB] [--jobs N] [--limit SECONDS]
                           [--minutes M] [--state FILE]

Build the programs first. Sixteen children of a branch may have one text, so a file with a text for each level tells of
16 times as many nodes with each level more. Such a gathered chunk states its own root; a part is checked against a root
that somebody vouches for, so its row is here to compare. Each command runs on files of 1 to --levels levels (8, some
4,600,000,000 nodes) in --room GiB of address space (4). A row has what a run took above that of one level. What is
right is a refusal, and from 6 levels on, where a walk has no room for the nodes, want of memory with nothing written;
each within --limit seconds (60). The exit status is 0 where every run was right.
"""
import hashlib
import multiprocessing
import os
import resource
import tempfile
import time

import programs as shared
import tries
from chains import counted, listed, u32, u64

GIB = 1 << 30
# The least levels of which a walk's room holds no more than a part.
NO_ROOM = 6


def top_of(texts, text):
    texts.append(text)
    return hashlib.sha256(text).digest()


def repeated(levels, value=b"v"):
    """The texts of a trie below 07, in which each node but the first has 16 children alike, and its root."""
    part = b"\x20" if levels % 2 == 0 else b"\x30"
    usage = 100 + 2 * len(part) + len(value)
    leaf = b"\0" + counted(part) + u32(len(value)) + hashlib.sha256(value).digest() + u64(usage)
    texts = [value]
    top = top_of(texts, leaf)
    for _ in range(levels):
        usage = 50 + 16 * usage
        top = top_of(texts, b"\2\xff\xff" + top * 16 + u64(usage))
    front = b"\0\x07"
    return texts, top_of(texts, b"\1" + counted(front) + top + u64(50 + 2 * len(front) + usage))


def gathered(levels):
    """A gathered chunk without transactions and receipts, over such a trie."""
    texts, root = repeated(levels)
    front = b"NRS1" + root + listed([]) + u64(2) + u64(0) + b"\0" + u32(0) + listed([]) + listed([])
    return front + listed([counted(text) for text in texts])


def part(levels):
    """The one part of such a state, without its entries, and the root."""
    texts, root = repeated(levels)
    return b"NRP1" + root + u32(1) + u32(0) + listed([]) + listed([counted(text) for text in texts[1:]]), root.hex()


def commands(path, levels):
    """The commands on a file, as (verb, the words behind it, what stands in the file)."""
    data, root = part(levels)
    return [("recheck", ["free", path], gathered(levels)), ("checkpart", [root, path], data)]


def in_room(runner, words, room):
    """A run in so much address space."""
    resource.setrlimit(resource.RLIMIT_AS, (room, resource.RLIM_INFINITY))
    ran = runner.run(words)
    resource.setrlimit(resource.RLIMIT_AS, (resource.RLIM_INFINITY, resource.RLIM_INFINITY))
    return ran


def is_right(ran, levels):
    if levels >= NO_ROOM:
        return ran.status == shared.NO_MEMORY and not ran.out and ran.err == b"7\n"
    return ran.status in (12, 13) and not ran.out and ran.err.startswith(b"%d " % ran.status)


def ready(limit, folder, until):
    global runner, late, file
    runner, late, file = shared.Runner(limit), until, os.path.join(folder, f"file-{os.getpid()}")


def measured(task):
    """A command on a file of so many levels, and on one of a single level: what it took more, and what was wrong."""
    key, (serial, verb, levels, room) = task
    if tries.is_late(late):
        return key, None
    rans = []
    for count in (1, levels):
        words, data = next((words, data) for one, words, data in commands(file, count) if one == verb)
        shared.write(file, data)
        rans.append(in_room(runner, [serial, verb, *words], room * GIB))
    low, ran = rans
    wrong = [] if is_right(ran, levels) else [f"status {ran.status}, {len(ran.out)} bytes written, {ran.err[-200:]!r}"]
    return key, {"size": len(data), "said": ran.err.decode(errors="replace").strip(), "wrong": wrong,
                 "seconds": ran.processor - low.processor, "held": (ran.memory - low.memory) * 1024}


def row(verb, levels, found):
    """The row of a run, by what it took above the one of a single level."""
    nodes = 1 + sum(16**level for level in range(levels + 1))
    seconds, held = found["seconds"], found["held"]
    return (f"| {verb} | {levels} | {nodes:,} | {found['size']:,} | {found['said']} | {seconds:.2f} | "
            f"{seconds / nodes * 1e9:,.0f} | {held / 2**20:,.0f} | {held / nodes:,.0f} |")


def main():
    more = [("--levels", {"type": int, "default": 8}), ("--room", {"type": int, "default": 4})]
    arguments, begin = shared.arguments_of(__doc__, *more), time.monotonic()
    found = shared.programs_in(arguments.programs)
    state, rows, wrong = tries.State(arguments.state, found), {}, 0
    tasks = {f"{verb}, {levels} levels, {arguments.room} GiB": (found["near_serial"], verb, levels, arguments.room)
             for levels in range(arguments.levels, 0, -1) for verb in ("recheck", "checkpart")
             if not arguments.only or arguments.only in verb}
    with tempfile.TemporaryDirectory() as folder:
        given = (arguments.limit, folder, tries.until_of(arguments))
        with multiprocessing.Pool(arguments.jobs, ready, given) as pool:
            for key, value in tries.carried_out(pool, measured, tasks.items(), state):
                _, verb, levels, _ = tasks[key]
                rows[levels, verb] = row(verb, levels, value)
                for text in value["wrong"]:
                    wrong += 1
                    print(f"  WRONG {key}: {text}", flush=True)
    print("| Command | Levels | Nodes | File, bytes | Ends with | Seconds | ns a node | MiB | Bytes a node |")
    print("|---|---|---|---|---|---|---|---|---|")
    for place in sorted(rows):
        print(rows[place])
    tries.close(f"repeated: {len(rows)} runs on files of few texts at many places", wrong, begin)


if __name__ == "__main__":
    main()
