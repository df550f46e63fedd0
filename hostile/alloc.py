#!/usr/bin/env python3
"""Runs each command again and again, each time with another allocation that fails.

usage: hostile/alloc.py [--programs FOLDER] [--only WORD] [--most N] [--rooms N] [--jobs N] [--limit SECONDS]
                        [--minutes M] [--state FILE]

Build the programs first. faults.c is compiled and loaded before them; it makes each allocation fail in turn, once alone
and once with all behind it. Each such run is a copy of a run that goes on undisturbed, made where the allocation stands
(fork); of near_replay, from where threads begin until all are joined, a copy that begins before the program's first
instruction. With --most N at most so many allocations of a command are tried, evenly (0: each). A run has to end with
status 7, the line `7` on standard error and nothing on standard output; or as it ends undisturbed, with the same text.
Counted apart is status 7 without a line: there was no memory for the line either.

Then commands on long files run with --rooms sizes of address space (60), from what the program needs to start, to what
it needs to end: the same answers are right. They have 256 KiB of stack from the start, since the system ends a program
whose stack can't grow. With --rooms 0 they don't run; with --most -1 they run alone. The exit status is 0 where every
run was right.
"""
import collections
import multiprocessing
import os
import resource
import tempfile
import time

import programs as shared
import tries

MIB = 1 << 20
STACK = MIB // 4
SLICE, SLICES = 2000, 64


def ready(limit, library, folder, until):
    global runner, faults, sweeper, late
    runner, faults = shared.Runner(limit), shared.Faults(library, folder)
    sweeper, late = tries.Sweeper(limit, library, folder, until), until


def counted(task):
    """The status of the undisturbed run, how many allocations it makes, and whether faults.c changes nothing."""
    case, name = task
    right = runner.run(case.words)
    shared.write(f"{name}.out", right.out)
    shared.write(f"{name}.err", right.err)
    again = runner.run(case.words, faults.of("memory"))
    return right.status, faults.count(), again[:3] == right[:3]


def swept(task):
    key, sweep = task
    if tries.is_late(late):
        return key, None
    return key, sweeper.swept(sweep)._asdict()


def here(case, name, status, calls, most):
    """Sweeps over all allocations of a command, as (part of all, key, sweep)."""
    step = max(1, -(-calls // most)) if most else 1
    slices = min(SLICES, max(1, calls // step // SLICE))
    for number in range(slices):
        sweep = tries.Sweep(case, name, status, "memory", ("ENOMEM",), "here", 1 + step * number, 0, step * slices)
        yield number / slices, f"{case.program} {case.name}: {number} of {slices}, step {step}", sweep


def by_threads(case, name, status, begin, end, most):
    """Sweeps over the allocations while threads live. Their count is another one each time."""
    end += (end - begin) // 50
    step = max(1, -(-(end - begin) // most)) if most else 1
    slices = min(SLICES, max(1, (end - begin) // step // (SLICE // 4)))
    for number in range(slices):
        first = begin + step * number
        sweep = tries.Sweep(case, name, status, "memory", ("ENOMEM",), "whole", first, end, step * slices)
        yield number / slices, f"{case.program} {case.name}, by threads: {number} of {slices}, step {step}", sweep


class Sums:
    """What was found of a command."""

    def __init__(self, case, calls):
        self.case, self.calls, self.tried, self.by_threads = case, calls, 0, 0
        self.ends, self.threaded, self.runs = collections.Counter(), [0, 0], 0

    def add(self, found, is_whole):
        for text in found["shown"]:
            print(f"  WRONG {self.case.program} {self.case.name}, allocation {text}", flush=True)
        self.tried += 0 if is_whole else found["tried"]
        self.by_threads += found["tried"] if is_whole else 0
        for name, count in found["ends"].items():
            end = name.rsplit(": ", 1)[1]
            self.ends[{"refused": "status 7", "silent": "status 7, silent"}.get(end, end)] += count
        begin, end = found["threaded"]
        if begin:
            self.threaded = [min(begin, self.threaded[0] or begin), max(end, self.threaded[1])]

    def tell(self):
        ends = ", ".join(f"{end} {count}" for end, count in sorted(self.ends.items()))
        threads = f", and {self.by_threads} that threads make" if self.by_threads else ""
        print(f"{self.case.program} {self.case.name}: {self.calls} allocations, {self.tried} tried each way{threads}; "
              f"{ends}", flush=True)


def sweep_all(pool, cases, arguments, state, folder):
    """Each allocation of each command in turn; the sums."""
    rights = [os.path.join(folder, f"right-{place}") for place in range(len(cases))]
    counts = pool.map(counted, zip(cases, rights), 1)
    sums = [Sums(case, calls) for case, (_, calls, _) in zip(cases, counts)]
    for one, (_, _, same) in zip(sums, counts):
        if not same:
            one.ends["wrong"] += 1
            print(f"  WRONG {one.case.program} {one.case.name}: with faults.c loaded it ends otherwise", flush=True)
    rows = [(*row, place) for place, case in enumerate(cases)
            for row in here(case, rights[place], counts[place][0], counts[place][1], arguments.most)]
    add_all(pool, rows, state, sums, False)
    rows = [(*row, place) for place, case in enumerate(cases) if sums[place].threaded[0]
            for row in by_threads(case, rights[place], counts[place][0], *sums[place].threaded, arguments.most)]
    add_all(pool, rows, state, sums, True)
    return sums


def add_all(pool, rows, state, sums, is_whole):
    rows.sort(key=lambda row: row[0])
    places = {key: place for _, key, _, place in rows}
    for key, found in tries.carried_out(pool, swept, [(key, sweep) for _, key, sweep, _ in rows], state):
        sums[places[key]].add(found, is_whole)


def judged(ran, right):
    if ran.status == shared.NO_MEMORY and not ran.out:
        return "status 7" if ran.err == b"7\n" else "status 7, silent" if not ran.err else "wrong"
    return "whole" if ran[:3] == right[:3] else "wrong"


def in_rooms(task):
    """The command in rising address spaces: what they are, how it ended, and what was wrong."""
    key, (case, program, many, library) = task
    if tries.is_late(late):
        return key, None
    grown = {"LD_PRELOAD": library, "FAULTS_STACK": str(STACK)}
    in_room = lambda case, size: shared.limited(case.words, {resource.RLIMIT_AS: size}, environment=grown)
    right = in_room(case, resource.RLIM_INFINITY)
    none = shared.Case("", case.program, [program, "walk"])
    starts = lambda size: in_room(none, size).status == shared.USAGE
    serves = lambda size: in_room(case, size)[:3] == right[:3]
    least, most = least_that(starts, MIB // 4), least_that(serves, MIB // 4)
    ends, wrong = collections.Counter(), []
    for step in range(many):
        size = least + (most - least) * step // many
        ran = in_room(case, size)
        end = judged(ran, right)
        ends[end] += 1
        if end == "wrong":
            wrong.append(f"in {size} bytes of address space: status {ran.status}, {ran.err[-200:]!r}")
    return key, {"least": least, "most": most, "ends": ends, "wrong": wrong}


def least_that(holds, size):
    """A size at which it holds, at most a quarter MiB above one at which it doesn't."""
    low = 0
    while not holds(size):
        low, size = size, 2 * size
    while size - low > MIB // 4:
        middle = (low + size) // 2
        low, size = (low, middle) if holds(middle) else (middle, size)
    return size


def rooms_all(pool, cases, found, arguments, state, library):
    """All commands on long files in address spaces that are too small; the counts of runs and of wrong ones."""
    tasks = [(f"rooms {case.program} {case.name}", (case, found[case.program], arguments.rooms, library))
             for case in cases]
    runs = wrong = 0
    for key, value in tries.carried_out(pool, in_rooms, tasks, state):
        ends = ", ".join(f"{end} {count}" for end, count in sorted(value["ends"].items()))
        print(f"{key}: from {value['least'] / MIB:.1f} to {value['most'] / MIB:.1f} MiB of address space; {ends}",
              flush=True)
        for text in value["wrong"][:10]:
            print(f"  WRONG {key}, {text}", flush=True)
        runs += sum(value["ends"].values())
        wrong += len(value["wrong"])
    return runs, wrong


def main():
    more = [("--most", {"type": int, "default": 0}), ("--rooms", {"type": int, "default": 60})]
    arguments = shared.arguments_of(__doc__, *more)
    found, begin, sums, roomed = shared.programs_in(arguments.programs), time.monotonic(), [], (0, 0)
    state, until = tries.State(arguments.state, found), tries.until_of(arguments)
    with tempfile.TemporaryDirectory() as folder:
        library = shared.faults_in(folder)
        chosen = lambda cases: [case for case in cases if shared.fits(case, arguments.only)]
        given = (arguments.limit, library, folder, until)
        cases, long = chosen(shared.cases(folder, found)), chosen(shared.long_cases(folder, found))
        with multiprocessing.Pool(arguments.jobs, ready, given) as pool:
            if arguments.rooms:
                roomed = rooms_all(pool, long, found, arguments, state, library)
            if arguments.most >= 0:
                sums = sweep_all(pool, cases, arguments, state, folder)
    for one in sums:
        one.tell()
    ends = sum((one.ends for one in sums), collections.Counter())
    calls, tried, threads = (sum(getattr(one, name) for one in sums) for name in ("calls", "tried", "by_threads"))
    told, wrong = ", ".join(f"{end} {count}" for end, count in sorted(ends.items())), ends["wrong"] + roomed[1]
    tries.close(f"alloc: {len(sums)} commands with {calls} allocations, {tried} tried each way, and {threads} that "
                f"threads make, in {sum(ends.values())} runs ({told}); {roomed[0]} runs in little room", wrong, begin)


if __name__ == "__main__":
    main()
