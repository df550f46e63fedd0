#!/usr/bin/env python3
"""Measures whole runs of the program on inputs of rising size, and prints them as a table.

usage: bench/runs.py [--program PATH] [--only accounts|blocks|transactions|shards|delayed]
       bench/runs.py --beside [PATH] [--program PATH] [--blocks N]
       bench/runs.py --long [PATH] [--program PATH]
       bench/runs.py --large [--program PATH]

Build the program first: cd crates/near_serial && rt run. Each input has accounts with a key each, spread evenly over the
shards, and blocks of transfers from each account to the next one in turn. Under `delayed` a receipt costs gas, and a chunk's
limit lets a hundred of them run, so that the others wait. The time is that of one run; the memory is the most that it held.

With `--beside` the serial program and the one with a thread for each shard (crates/near_replay) run one after the other on
the same files, and on the same generated chains of N blocks (256), on one, two and four cores as far as there are so many.
The ratio is the time by threads over the serial one. Both must write the same.

With `--long` both run on chains of up to 100,000 blocks over an empty genesis. All chunks are empty: of all shards in each
block, of the first shard alone but for the first block and the last, or none.

With `--large` the program runs 21 calls with 4,000,000 bytes of arguments each, in so many blocks of one shard: of the next
account, or of the signer itself. The receivers have no code. The memory is told beside the size of the file of blocks.
"""
import argparse
import hashlib
import json
import os
import struct
import sys
import tempfile
import time

ROWS = {
    "accounts": [(100, 4, 10, 1), (1_000, 4, 10, 1), (10_000, 4, 10, 1), (100_000, 4, 10, 1), (100_000, 256, 10, 1)],
    "blocks": [(100, 16, 10, 1), (100, 64, 10, 1), (100, 256, 10, 1)],
    "transactions": [(100, 4, 100, 1), (100, 4, 1_000, 1), (100, 4, 10_000, 1), (100, 4, 50_000, 1)],
    "shards": [(10_000, 16, 1_600, 1), (10_000, 16, 1_600, 4), (10_000, 16, 1_600, 16)],
    "delayed": [(1_000, 16, 1_000, 1), (4_000, 16, 4_000, 4)],
}


LONG = [(2, 100_000, "first"), (2, 10_000, "first"), (16, 10_000, "all"), (16, 20_000, "all"), (16, 100_000, "all"), (16, 100_000, "none")]


LARGE = [(1, "next"), (3, "next"), (21, "next"), (1, "itself"), (21, "itself")]
LARGE_CALLS, ARGUMENTS = 21, 4_000_000


def name(number):
    return b"account-%d" % number


def counted(data):
    return struct.pack("<I", len(data)) + data


def public_key(number):
    return b"\0" + struct.pack("<Q", number) + bytes(24)


def homes(accounts, shards):
    """The boundaries between the shards, and the accounts of each, by their numbers."""
    order = sorted(range(accounts), key=name)
    parts = [order[accounts * k // shards : accounts * (k + 1) // shards] for k in range(shards)]
    return [name(part[0]) for part in parts[1:]], parts


def genesis(accounts, shards):
    boundaries = homes(accounts, shards)[0]
    parts = [b"NRG1", struct.pack("<I", len(boundaries))]
    parts += [counted(boundary) for boundary in boundaries]
    parts.append(struct.pack("<I", 2 * accounts))
    for number in range(accounts):
        amount = (10**18).to_bytes(16, "little")
        parts.append(b"\0" + counted(name(number)) + amount + bytes(16) + bytes(32) + struct.pack("<Q", 182))
        parts.append(b"\2" + counted(name(number)) + public_key(number) + struct.pack("<Q", 0) + b"\1")
    return b"".join(parts)


def transfer(signer, receiver, nonce):
    head = counted(name(signer)) + public_key(signer) + struct.pack("<Q", nonce)
    return head + counted(name(receiver)) + bytes(32) + struct.pack("<I", 1) + b"\3" + (1).to_bytes(16, "little")


def large_call(signer, receiver):
    head = counted(name(signer)) + public_key(signer) + struct.pack("<Q", 1) + counted(name(receiver)) + bytes(32)
    return head + struct.pack("<I", 1) + b"\2" + counted(b"f") + counted(bytes(ARGUMENTS)) + bytes(24)


def large_blocks(heights, receiver):
    each = LARGE_CALLS // heights
    parts = [b"NRB1", struct.pack("<I", heights)]
    for height in range(1, heights + 1):
        parts.append(struct.pack("<QQI", height, 0, 1) + b"\1" + struct.pack("<I", each))
        for signer in range((height - 1) * each, height * each):
            parts.append(large_call(signer, signer if receiver == "itself" else (signer + 1) % LARGE_CALLS))
    return b"".join(parts)


def blocks(accounts, heights, each, shards):
    nonces = [0] * accounts
    turns = [0] * shards
    members = homes(accounts, shards)[1]
    parts = [b"NRB1", struct.pack("<I", heights)]
    for height in range(1, heights + 1):
        parts.append(struct.pack("<QQI", height, 0, shards))
        for shard in range(shards):
            parts.append(b"\1" + struct.pack("<I", each // shards))
            for _ in range(each // shards):
                signer = members[shard][turns[shard] % len(members[shard])]
                turns[shard] += 1
                nonces[signer] += 1
                parts.append(transfer(signer, (signer + 1) % accounts, nonces[signer]))
    return b"".join(parts)


def long_files(files, shards, heights, there):
    """An empty genesis, and blocks of empty chunks."""
    boundaries = [bytes([97 + shard] * 2) for shard in range(1, shards)]
    with open(files[0], "wb") as out:
        out.write(b"NRG1" + struct.pack("<I", len(boundaries)) + b"".join(map(counted, boundaries)) + struct.pack("<I", 0))
    empty, missing = b"\1" + struct.pack("<I", 0), b"\0"
    with open(files[1], "wb") as out:
        out.write(b"NRB1" + struct.pack("<I", heights))
        for height in range(1, heights + 1):
            whole = there == "all" or there == "first" and height in (1, heights)
            first = missing if there == "none" else empty
            chunks = first + (empty if whole else missing) * (shards - 1)
            out.write(struct.pack("<QQI", height, 0, shards) + chunks)


def long_chains(programs):
    print("| Shards | Blocks | Chunks | Seconds, serial | MiB | Seconds, threads | MiB | Ratio |")
    print("|---|---|---|---|---|---|---|---|")
    with tempfile.TemporaryDirectory() as folder:
        files = [os.path.join(folder, part) for part in ("genesis", "blocks")]
        for shards, heights, there in LONG:
            child = os.fork()
            if child == 0:
                long_files(files, shards, heights, there)
                os._exit(0)
            os.waitpid(child, 0)
            words = [[verb, "free"] + files for verb in ("run", "replay")]
            runs = [min((timed(*pair, folder) for _ in range(3)), key=lambda run: run[0]) for pair in zip(programs, words)]
            (serial, held, first), (threads, beside, second) = runs
            if first != second:
                sys.exit(f"the programs write different reports: {shards} shards, {heights} blocks, {there}")
            row = f"| {shards} | {heights:,} | {there} | {serial:.2f} | {held:.0f} | {threads:.2f} | {beside:.0f} | {threads / serial:.2f} |"
            print(row, flush=True)


def large_chains(program):
    print("| Blocks | Receiver | Seconds | MiB | Bytes | Ratio |")
    print("|---|---|---|---|---|---|")
    with tempfile.TemporaryDirectory() as folder:
        files = [os.path.join(folder, part) for part in ("genesis", "blocks")]
        for heights, receiver in LARGE:
            child = os.fork()
            if child == 0:
                for path, data in zip(files, (genesis(LARGE_CALLS, 1), large_blocks(heights, receiver))):
                    with open(path, "wb") as out:
                        out.write(data)
                os._exit(0)
            os.waitpid(child, 0)
            taken, held, _ = timed(program, ["run", "free"] + files, folder)
            size = os.path.getsize(files[1])
            print(f"| {heights} | {receiver} | {taken:.2f} | {held:.0f} | {size:,} | {held * 2**20 / size:.2f} |", flush=True)


def configuration(what):
    if what != "delayed":
        return None
    here = os.path.dirname(os.path.abspath(__file__))
    with open(os.path.join(here, "..", "examples", "config", "receipt_fees.json")) as file:
        values = json.load(file)
    values["chunk_gas_limit"] = 1_200
    return json.dumps(values).encode()


def write_files(files, row, config):
    # In a process of its own: what this one held would count as the program's memory.
    child = os.fork()
    if child == 0:
        accounts, _, _, shards = row
        for path, data in zip(files, (genesis(accounts, shards), blocks(*row), config)):
            if data is not None:
                with open(path, "wb") as out:
                    out.write(data)
        os._exit(0)
    os.waitpid(child, 0)


def timed(program, words, folder):
    """The seconds that a run takes, the most memory that it holds, and what it writes."""
    path = os.path.join(folder, "report")
    report = os.open(path, os.O_WRONLY | os.O_CREAT | os.O_TRUNC)
    begin = time.perf_counter()
    child = os.posix_spawn(program, [program] + words, os.environ, file_actions=[(os.POSIX_SPAWN_DUP2, report, 1)])
    _, status, used = os.wait4(child, 0)
    taken = time.perf_counter() - begin
    os.close(report)
    if status != 0:
        sys.exit(f"the program ended with {os.waitstatus_to_exitcode(status)}")
    with open(path, "rb") as file:
        return taken, used.ru_maxrss / 1024, hashlib.sha256(file.read()).digest()


def run(program, row, config):
    with tempfile.TemporaryDirectory() as folder:
        files = [os.path.join(folder, part) for part in ("genesis", "blocks", "config")]
        write_files(files, row, config)
        words = ["run", "free" if config is None else files[2], files[0], files[1]]
        return timed(program, words, folder)[:2]


def compare(what, programs, words, folder, cores):
    """Runs both programs on some cores, and prints a row."""
    os.sched_setaffinity(0, cores)
    (serial, _, first), (threads, _, second) = [timed(*pair, folder) for pair in zip(programs, words)]
    if first != second:
        sys.exit(f"the programs write different reports: {what}")
    print(f"| {what} | {len(cores)} | {serial:.2f} | {threads:.2f} | {threads / serial:.2f} |", flush=True)


def side_by_side(programs, blocks):
    there = sorted(os.sched_getaffinity(0))
    counts = [count for count in (1, 2, 4) if count <= len(there)]
    print("| Input | Shards | Cores | Seconds, serial | Seconds, threads | Ratio |")
    print("|---|---|---|---|---|---|")
    with tempfile.TemporaryDirectory() as folder:
        files = [os.path.join(folder, part) for part in ("genesis", "blocks", "config")]
        for row in ROWS["shards"]:
            write_files(files, row, None)
            words = [[verb, "free"] + files[:2] for verb in ("run", "replay")]
            for count in counts:
                compare(f"{row[2] * row[1]:,} transfers | {row[3]}", programs, words, folder, there[:count])
        for shards in (1, 4, 16):
            words = ["gen", "7", str(shards), str(blocks)]
            for count in counts:
                compare(f"`{' '.join(words)}` | {shards}", programs, [words, words], folder, there[:count])


def built(path, name):
    here = os.path.dirname(os.path.abspath(__file__))
    program = os.path.abspath(path or os.path.join(here, "..", "crates", name, "out", name))
    if not os.path.exists(program):
        sys.exit(f"no program: build it first (cd crates/{name} && rt run)")
    return program


def main():
    parser = argparse.ArgumentParser()
    parser.add_argument("--program")
    parser.add_argument("--only", choices=ROWS)
    parser.add_argument("--beside", nargs="?", const="")
    parser.add_argument("--long", nargs="?", const="")
    parser.add_argument("--large", action="store_true")
    parser.add_argument("--blocks", type=int, default=256)
    arguments = parser.parse_args()
    program = built(arguments.program, "near_serial")
    if arguments.beside is not None:
        side_by_side([program, built(arguments.beside, "near_replay")], arguments.blocks)
        return
    if arguments.long is not None:
        long_chains([program, built(arguments.long, "near_replay")])
        return
    if arguments.large:
        large_chains(program)
        return
    print("| Accounts | Blocks | Transactions a block | Shards | Seconds | MiB |")
    print("|---|---|---|---|---|---|")
    for what, rows in ROWS.items():
        if arguments.only in (None, what):
            for row in rows:
                taken, memory = run(program, row, configuration(what))
                print("| " + " | ".join(f"{number:,}" for number in row) + f" | {taken:.2f} | {memory:.0f} |", flush=True)


if __name__ == "__main__":
    main()
