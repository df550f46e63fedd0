#!/usr/bin/env python3
"""Runs chains by threads while threads are held up, or can't be had, and compares what is written with the serial run.

usage: hostile/threads.py [--programs FOLDER] [--only WAY] [--runs N] [--busy N] [--seed N] [--jobs N]
                          [--limit SECONDS] [--minutes M] [--state FILE]

Build the programs first. Chains that numbers generate, with 2 to 16 shards, and chains of contracts with promises,
delayed receipts, chunks that are missing and boundaries that change, are run in each of these ways, N times in all a
way (1,000), some of each way in turn, while some processes (4) keep the processors busy:

  one processor, two processors, all processors
  allocations pause     by faults.c each so many-th allocation sleeps, so that a thread stands still at any place
  threads stop          some threads of the run are stopped by themselves (ptrace), and go on later
  all stop              the run is stopped and continued, its threads each on a processor by chance
  no thread             by faults.c no thread can be started
  few threads           by faults.c all threads but the first few fail to start, or one alone fails
  a user without        the limit of processes is reached (for root: by the user nobody, who may have a few threads)
  little room           so little address space that stacks of threads don't fit: status 7 is right too, with nothing
                        written; with 256 KiB of stack from the start, since the system ends a program whose first
                        thread's stack can't grow

The exit status is 0 where each run wrote what the serial run writes, and ended as it did.
"""
import collections
import ctypes
import errno
import multiprocessing
import os
import random
import resource
import shutil
import signal
import subprocess
import sys
import tempfile
import time

import chains
import programs as shared
import tries

MIB, STEP = 1 << 20, 10
STACK = MIB // 4
# After how many allocations one pauses, and for how many microseconds.
PAUSES = [(7, 1), (31, 1), (31, 50), (101, 50), (101, 1000), (503, 1000)]
GENERATED = [(7, 2, 40), (7, 3, 25), (7, 4, 30), (9, 4, 12), (7, 8, 12), (7, 16, 8), (4, 16, 5)]
WAYS = ("one processor", "two processors", "all processors", "allocations pause", "threads stop", "all stop",
        "no thread", "few threads", "a user without", "little room")
NOBODY = 65534
SEIZE, INTERRUPT, DETACH, WALL = 0x4206, 0x4207, 17, 0x40000000
trace = ctypes.CDLL(None, use_errno=True).ptrace
trace.argtypes = [ctypes.c_long, ctypes.c_long, ctypes.c_void_p, ctypes.c_void_p]


def words_of(folder):
    """The chains: what the serial program is given, and what the other one is."""
    rows = [[["gen", *map(str, row)]] * 2 for row in GENERATED]
    write = lambda name, data: shared.write(os.path.join(folder, name), data)
    config, people = write("config", chains.busy_config()), write("people", chains.people(chains.example_code()))
    genesis = write("genesis", chains.bytes_of("contract", "genesis"))
    four = write("four", chains.bytes_of("four_shards", "genesis"))
    files = [
        [config, genesis, write("busy", chains.busy_blocks())],
        [config, people, write("every", chains.every_action())],
        ["free", four, write("four-blocks", chains.bytes_of("four_shards", "blocks"))],
        [config, people, write("changing", chains.resharded())],
    ]
    return rows + [[["run", *some], ["replay", *some]] for some in files]


def ready(limit, library, folder, replay, wanted, until):
    global runner, faults, program, right, seconds, there, late
    runner, faults = shared.Runner(limit), shared.Faults(library, folder)
    program, right, seconds, late = replay, wanted, limit, until
    there = sorted(os.sched_getaffinity(0))


def on(count, words):
    """A run on so many of the processors."""
    os.sched_setaffinity(0, chance.sample(there, min(count, len(there))))
    try:
        return runner.run(words)
    finally:
        os.sched_setaffinity(0, there)


def threads_of(process):
    try:
        return [int(thread) for thread in os.listdir(f"/proc/{process}/task")]
    except OSError:
        return []


def stands_still(run, thread):
    """Waits until the thread stands still or has ended; with the first one the whole run ends."""
    end = time.monotonic() + seconds
    while time.monotonic() < end:
        try:
            got, status = os.waitpid(thread, WALL | os.WNOHANG)
        except ChildProcessError:
            return
        if got == run.pid and not os.WIFSTOPPED(status):
            run.returncode = os.waitstatus_to_exitcode(status)
        if got:
            return
        time.sleep(0.0005)


def stop_some(run):
    """Stops some threads of the run for a while, the others going on."""
    held = []
    for thread in threads_of(run.pid):
        if chance.randrange(2) and trace(SEIZE, thread, None, None) == 0:
            held.append(thread)
            trace(INTERRUPT, thread, None, None)
    for thread in held:
        stands_still(run, thread)
    time.sleep(chance.random() / 100)
    for thread in held:
        trace(DETACH, thread, None, None)
    time.sleep(chance.random() / 300)


def stop_all(run):
    """Stops the run for a while, and puts its threads onto processors by chance."""
    run.send_signal(signal.SIGSTOP)
    time.sleep(chance.random() / 500)
    for thread in threads_of(run.pid):
        try:
            os.sched_setaffinity(thread, {chance.choice(there)})
        except OSError:
            pass
    run.send_signal(signal.SIGCONT)
    time.sleep(chance.random() / 200)


def disturbed(words, act):
    """A run during which something is done to it again and again."""
    with tempfile.TemporaryFile() as out, tempfile.TemporaryFile() as err:
        run = subprocess.Popen(words, stdout=out, stderr=err)
        end = time.monotonic() + seconds
        while run.returncode is None and run.poll() is None and time.monotonic() < end:
            act(run)
        hung = run.poll() is None
        if hung:
            run.kill()
        status = run.wait()
        out.seek(0)
        err.seek(0)
        return shared.Ran(shared.HUNG if hung else status, out.read(), err.read(), 0, 0)


def without(words):
    """A run by a user who may have few threads, or none."""
    if os.getuid() == 0:
        return shared.limited(words, {resource.RLIMIT_NPROC: chance.randint(1, 12)}, NOBODY, seconds)
    return shared.limited(words, {resource.RLIMIT_NPROC: 0}, None, seconds)


def run(way, words):
    if way.endswith("processors") or way == "one processor":
        return on({"one": 1, "two": 2}.get(way.split()[0], len(there)), words)
    if way == "allocations pause":
        every, pause = chance.choice(PAUSES)
        return runner.run(words, faults.of("memory", 1 + chance.randrange(every), 0, "pause", every, pause))
    if way == "threads stop":
        return disturbed(words, stop_some)
    if way == "all stop":
        return disturbed(words, stop_all)
    if way == "no thread":
        return runner.run(words, faults.of("thread", 1, 0, errno.EAGAIN))
    if way == "few threads":
        return runner.run(words, faults.of("thread", chance.randint(1, 20), chance.randrange(2), errno.EAGAIN))
    if way == "a user without":
        return without(words)
    grown = {"LD_PRELOAD": faults.library, "FAULTS_STACK": str(STACK)}
    return shared.limited(words, {resource.RLIMIT_AS: chance.randint(8, 400) * MIB}, None, seconds, grown)


def end_of(way, number, seed):
    """How a run of a way ended, and what was wrong with it."""
    global chance
    chance = random.Random(f"{seed} {way} {number}")
    serial, words = right[number % len(right)]
    ran = run(way, [program, *words])
    if ran[:3] == serial[:3]:
        return "as the serial run", None
    if way == "little room" and ran.status == shared.NO_MEMORY and (ran.out, ran.err) == (b"", b"7\n"):
        return "status 7", None
    command = " ".join(map(os.path.basename, words))
    return "wrong", f"run {number}, {command}: status {ran.status}, {len(ran.out)} bytes written, {ran.err[-200:]!r}"


def tried(task):
    """The runs of some numbers."""
    key, (way, first, last, seed) = task
    if tries.is_late(late):
        return key, None
    ends, wrong = collections.Counter(), []
    for number in range(first, last):
        end, what = end_of(way, number, seed)
        ends[end] += 1
        wrong += [what] if what else []
    return key, {"ends": ends, "wrong": wrong}


def sweep_all(pool, ways, arguments, state):
    """All runs of all ways, some of each in turn: how they ended."""
    sums = {way: collections.Counter() for way in ways}
    tasks = {f"{way}, seed {arguments.seed}: {first}": (way, first, min(first + STEP, arguments.runs), arguments.seed)
             for first in range(0, arguments.runs, STEP) for way in ways}
    for key, value in tries.carried_out(pool, tried, tasks.items(), state):
        way = tasks[key][0]
        for what in value["wrong"][: max(0, 10 - sums[way]["wrong"])]:
            print(f"  WRONG {way}, {what}", flush=True)
        sums[way].update(value["ends"])
    return sums


def main():
    numbers, begin = {"--runs": 1000, "--busy": 4, "--seed": 1}, time.monotonic()
    arguments = shared.arguments_of(__doc__, *((name, {"type": int, "default": n}) for name, n in numbers.items()))
    ways = [way for way in WAYS if not arguments.only or arguments.only in way]
    found = shared.programs_in(arguments.programs)
    if not {"near_serial", "near_replay"} <= found.keys():
        sys.exit("near_serial and near_replay are needed: build them first")
    state, until = tries.State(arguments.state, found), tries.until_of(arguments)
    with tempfile.TemporaryDirectory() as folder:
        os.chmod(folder, 0o755)
        library, replay = shared.faults_in(folder), shutil.copy(found["near_replay"], folder)
        os.chmod(replay, 0o755)
        rows = words_of(folder)
        ready(arguments.limit, library, folder, replay, None, until)
        wanted = [(runner.run([found["near_serial"], *row[0]]), row[1]) for row in rows]
        if any(serial.status != shared.DONE for serial, _ in wanted):
            sys.exit("a serial run failed")
        busy = [subprocess.Popen([sys.executable, "-c", "while True: pass"]) for _ in range(arguments.busy)]
        try:
            given = (arguments.limit, library, folder, replay, wanted, until)
            with multiprocessing.Pool(arguments.jobs, ready, given) as pool:
                sums = sweep_all(pool, ways, arguments, state)
        finally:
            for process in busy:
                process.kill()
    for way, ends in sums.items():
        counts = ", ".join(f"{end} {count}" for end, count in sorted(ends.items()))
        print(f"{way}: {sum(ends.values())} runs, {counts}", flush=True)
    runs, wrong = (sum(counts) for counts in zip(*((sum(ends.values()), ends["wrong"]) for ends in sums.values())))
    tries.close(f"threads: {runs} runs in {len(ways)} ways", wrong, begin)


if __name__ == "__main__":
    main()
