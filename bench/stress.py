#!/usr/bin/env python3
"""Runs chains by threads many times in a row under load, and compares what is written with the serial run.

usage: bench/stress.py [--serial PATH] [--replay PATH] [--runs N] [--busy N] [--freeze]

Build the programs first. Nine chains: seven that numbers generate, and two long ones of empty chunks, in one of which a
shard is away between the first block and the last. Each is run N times (500) by threads, on one to four processors in turn
as far as there are so many, while some processes (4) keep the processors busy. With `--freeze` each run is stopped and
continued again and again, and meanwhile its threads are put onto single processors by chance. The exit status is 0 where
each run wrote what the serial run writes, and ended as it did.
"""
import argparse
import hashlib
import os
import random
import signal
import subprocess
import sys
import tempfile
import time

sys.path.insert(0, os.path.dirname(os.path.abspath(__file__)))
import runs

GENERATED = [(7, 2, 40), (7, 3, 25), (7, 4, 30), (9, 4, 12), (7, 8, 12), (7, 16, 8), (4, 16, 5)]
LONG = [(2, 400, "first"), (16, 60, "all")]
LIMIT = 120


def written(words):
    done = subprocess.run(words, stdout=subprocess.PIPE, timeout=LIMIT)
    return done.returncode, hashlib.sha256(done.stdout).digest()


def threads_of(process):
    try:
        return [int(thread) for thread in os.listdir(f"/proc/{process}/task")]
    except OSError:
        return []


def frozen(words, chance):
    """The same of a run that is stopped and continued, its threads each on a processor by chance."""
    with tempfile.TemporaryFile() as out:
        run = subprocess.Popen(words, stdout=out)
        begin = time.monotonic()
        while run.poll() is None and time.monotonic() < begin + LIMIT:
            run.send_signal(signal.SIGSTOP)
            time.sleep(chance.random() / 500)
            for thread in threads_of(run.pid):
                try:
                    os.sched_setaffinity(thread, {chance.choice(sorted(os.sched_getaffinity(0)))})
                except OSError:
                    pass
            run.send_signal(signal.SIGCONT)
            time.sleep(chance.random() / 200)
        out.seek(0)
        return run.wait(LIMIT), hashlib.sha256(out.read()).digest()


def main():
    parser = argparse.ArgumentParser()
    parser.add_argument("--serial")
    parser.add_argument("--replay")
    parser.add_argument("--runs", type=int, default=500)
    parser.add_argument("--busy", type=int, default=4)
    parser.add_argument("--freeze", action="store_true")
    arguments = parser.parse_args()
    serial, replay = runs.built(arguments.serial, "near_serial"), runs.built(arguments.replay, "near_replay")
    there = sorted(os.sched_getaffinity(0))
    chance = random.Random(1)
    busy = [subprocess.Popen([sys.executable, "-c", "while True: pass"]) for _ in range(arguments.busy)]
    differ = 0
    try:
        with tempfile.TemporaryDirectory() as folder:
            chains = [([serial, "gen", *map(str, row)], [replay, "gen", *map(str, row)]) for row in GENERATED]
            for number, row in enumerate(LONG):
                files = [os.path.join(folder, f"{part}{number}") for part in ("genesis", "blocks")]
                runs.long_files(files, *row)
                chains.append(([serial, "run", "free", *files], [replay, "replay", "free", *files]))
            for one, other in chains:
                wanted, wrong, begin = written(one), 0, time.monotonic()
                for turn in range(arguments.runs):
                    os.sched_setaffinity(0, there[: 1 + turn % len(there)])
                    wrong += (frozen(other, chance) if arguments.freeze else written(other)) != wanted
                os.sched_setaffinity(0, there)
                differ += wrong
                words = " ".join(os.path.basename(word) for word in other)
                print(f"{words}: {arguments.runs} runs, {wrong} differ, {time.monotonic() - begin:.0f} s", flush=True)
    finally:
        for process in busy:
            process.kill()
    sys.exit(1 if differ else 0)


if __name__ == "__main__":
    main()
