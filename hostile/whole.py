#!/usr/bin/env python3
"""Runs all scripts of this folder one after the other, within a bound of time, and tells their counts.

usage: hostile/whole.py [--programs FOLDER] [--folder FOLDER] [--minutes M] [--jobs N] [--only WORD] [--small]

Build the programs first. Each script gets a part of the minutes (without --minutes as long as it takes), and then those
that have tasks left get what remains. What is done stands in --folder (hostile-runs in the folder for temporary files):
NAME.state of each script, which a later call goes on from as long as programs and scripts are the same, and NAME.log.
With --small each script does a hundredth or so, to see that all is there. At the end a line for each script has its
counts, and whether it is whole. Time that then is left goes to more damaged files, up to 100,000 of each kind. The exit
status is 0 where every run was right.
"""
import argparse
import os
import subprocess
import sys
import tempfile
import time

import programs as shared

# The scripts, the part of the time that each gets at first, what it is given always, and what with --small.
SCRIPTS = [("stack", 0.08, [], ["--keys", "300"]), ("repeated", 0.04, [], ["--levels", "3"]),
           ("reads_writes", 0.15, ["--limit", "20"], ["--most", "10", "--only", "run"]),
           ("alloc", 0.28, ["--limit", "20"], ["--most", "40", "--rooms", "4"]),
           ("threads", 0.17, [], ["--runs", "10"]),
           ("damage", 0.28, ["--limit", "20"], ["--files", "50", "--fronts", "0"])]
MORE = ("damage", ["--limit", "20", "--files", "100000"])


def arguments_of():
    parser = argparse.ArgumentParser(description=__doc__, formatter_class=argparse.RawDescriptionHelpFormatter)
    parser.add_argument("--programs", default=os.path.join(shared.HERE, "..", "crates"))
    parser.add_argument("--folder", default=os.path.join(tempfile.gettempdir(), "hostile-runs"))
    parser.add_argument("--minutes", type=float)
    parser.add_argument("--jobs", type=int, default=len(os.sched_getaffinity(0)))
    parser.add_argument("--only", help="the scripts whose name contains this word")
    parser.add_argument("--small", action="store_true")
    return parser.parse_args()


def run(name, given, minutes, arguments):
    """A script, within its minutes: its last line, and whether it ended as it should."""
    log = os.path.join(arguments.folder, f"{name}.log")
    words = [sys.executable, os.path.join(shared.HERE, f"{name}.py"), "--programs", arguments.programs,
             "--jobs", str(arguments.jobs), *given]
    if not arguments.small:
        words += ["--state", os.path.join(arguments.folder, f"{name}.state")]
    words += ["--minutes", f"{minutes:.2f}"] if minutes else []
    with open(log, "w") as out:
        status = subprocess.run(words, stdout=out, stderr=subprocess.STDOUT).returncode
    with open(log, errors="replace") as lines:
        rows = lines.read().splitlines() or [""]
    for row in [row.strip() for row in rows if row.lstrip().startswith("WRONG")][:20]:
        print(f"  {name}: {row[:400]}", flush=True)
    is_closed = rows[-1].startswith(f"{name}: ")
    line = rows[-1] if is_closed else f"{name} broke off with status {status}: {rows[-1][:400]}"
    print(line, flush=True)
    return line, status == 0 and is_closed


def is_whole(line):
    return line.endswith(", whole")


def main():
    arguments = arguments_of()
    os.makedirs(arguments.folder, exist_ok=True)
    end = time.monotonic() + 60 * arguments.minutes if arguments.minutes else 0
    rest = lambda: (end - time.monotonic()) / 60
    scripts = {name: (part, [*given, *(small if arguments.small else [])]) for name, part, given, small in SCRIPTS
               if not arguments.only or arguments.only in name}
    lines, right = {}, {}
    for name, (part, given) in scripts.items():
        lines[name], right[name] = run(name, given, part * arguments.minutes if end else 0, arguments)
    for name, (part, given) in scripts.items():
        if end and not is_whole(lines[name]) and rest() > 0.3:
            parts = sum(part for other, (part, _) in scripts.items() if not is_whole(lines[other]))
            lines[name], right[name] = run(name, given, rest() * part / parts, arguments)
    if end and rest() > 1 and MORE[0] in scripts and all(map(is_whole, lines.values())):
        lines["more"], right["more"] = run(*MORE, rest(), arguments)
    print("\nAll of it:", *lines.values(), sep="\n")
    sys.exit(0 if all(right.values()) else 1)


if __name__ == "__main__":
    main()
