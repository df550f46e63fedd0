#!/usr/bin/env python3
"""Measures a genesis file that is made of a JSON text, and prints a table.

usage: bench/texts.py [--program PATH] [--runs N] [ACCOUNTS ..]

Build the program first: cd crates/near_files && rt run. The text has so many accounts (20,000 and 100,000) with a
key each. The time is the least of N runs (3) on the clock, and the memory the most that this run held. The processor's
seconds are the user's and the system's, the least of the runs: they tell more where other work runs beside. The aims:
100,000 accounts within 1 s and 300 MiB.
"""
import argparse
import json
import os
import resource
import sys
import tempfile

from runs import built, timed


def entries(number):
    """An account with its key."""
    account = {"kind": "account", "account_id": f"account{number:05}", "amount": str(10**18), "locked": "0"}
    account |= {"code_hash": "0" * 64}
    key = {"kind": "key", "account_id": account["account_id"], "public_key": f"ed25519:{number:064x}"}
    return [account, key | {"access_key": {"nonce": 0, "permission": "FullAccess"}}]


def write_text(path, accounts):
    # In a process of its own: what this one held would count as the program's memory.
    child = os.fork()
    if child == 0:
        listed = [entry for number in range(accounts) for entry in entries(number)]
        with open(path, "w") as out:
            json.dump({"boundaries": [], "entries": listed}, out)
        os._exit(0)
    _, status = os.waitpid(child, 0)
    if status != 0:
        sys.exit("the text could not be written")


def processor():
    """The seconds of the processor that ended children took."""
    used = resource.getrusage(resource.RUSAGE_CHILDREN)
    return used.ru_utime + used.ru_stime


def measured(program, path, folder):
    """The seconds of a run on the clock, the most memory that it held, and its seconds of the processor."""
    before = processor()
    taken, held, _ = timed(program, ["genesis", "free", path], folder)
    return taken, held, processor() - before


def main():
    parser = argparse.ArgumentParser()
    parser.add_argument("--program")
    parser.add_argument("--runs", type=int, default=3)
    parser.add_argument("accounts", type=int, nargs="*", default=[20_000, 100_000])
    arguments = parser.parse_args()
    program = built(arguments.program, "near_files")
    print("| Accounts | Text, bytes | Seconds | Of the processor | MiB |")
    print("|---|---|---|---|---|")
    with tempfile.TemporaryDirectory() as folder:
        path = os.path.join(folder, "text")
        for accounts in arguments.accounts:
            write_text(path, accounts)
            runs = [measured(program, path, folder) for _ in range(arguments.runs)]
            taken, held, _ = min(runs, key=lambda run: run[0])
            least = min(run[2] for run in runs)
            length = os.path.getsize(path)
            print(f"| {accounts:,} | {length:,} | {taken:.2f} | {least:.2f} | {held:.0f} |", flush=True)


if __name__ == "__main__":
    main()
