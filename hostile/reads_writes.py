#!/usr/bin/env python3
"""Runs each command again and again, each time with another read, write or opening that fails or is short; and on
files, pipes and devices that really are so.

usage: hostile/reads_writes.py [--programs FOLDER] [--only WORD] [--most N] [--jobs N] [--limit SECONDS]
                               [--minutes M] [--state FILE]

Build the programs first. faults.c is compiled and loaded before them; it makes each opening, read and write fail in
turn, each way alone and with all behind it. Each such run is a copy of a run that goes on undisturbed, made where the
call stands (fork). Then the same with reads and writes that move at most 100 bytes, so that there are many; there at
most --most calls of a kind are tried of a command (400), evenly. With --most 0 none are tried, but only what really is
so. What is right:

  a read or an opening fails        status 5, the line `5` (of near_files one in words), nothing on standard output
  a write fails                     status 6, the line `6`, and on standard output a front of the text, not all of it
  a call is interrupted (EINTR)     one of these, or the text whole with its status
  a read or a write moves one byte  the text whole

The exit status is 0 where every run was right.
"""
import collections
import multiprocessing
import os
import resource
import signal
import subprocess
import tempfile
import threading
import time

import programs as shared
import tries

FAULTS = {"open": ("EACCES", "EMFILE", "EINTR"), "read": ("EIO", "EISDIR", "EINTR", "short"),
          "write": ("EIO", "ENOSPC", "EPIPE", "EAGAIN", "EINTR", "short")}
PIECE = 100


def ready(limit, library, folder, until):
    global runner, faults, sweeper, late, own
    runner, faults = shared.Runner(limit), shared.Faults(library, folder)
    sweeper, late, own = tries.Sweeper(limit, library, folder, until), until, tempfile.mkdtemp(dir=folder)


def is_unread(program, ran):
    words = ran.err.startswith(b"the file ") and ran.err.endswith(b" can't be read\n")
    told = words if program == "near_files" else ran.err == b"5\n"
    return ran.status == shared.UNREADABLE and told and not ran.out


def is_unwritten(ran, right):
    front = right.out.startswith(ran.out) and len(ran.out) < len(right.out)
    return ran.status == shared.UNWRITTEN and ran.err == b"6\n" and front


def counted(task):
    """The status of the undisturbed run, and how many calls of each kind it makes, of any size and of short ones."""
    case, name = task
    right = runner.run(case.words)
    shared.write(f"{name}.out", right.out)
    shared.write(f"{name}.err", right.err)
    calls = {}
    for piece in (0, PIECE):
        for kind in FAULTS:
            runner.run(case.words, faults.of(kind, piece=piece))
            calls[piece, kind] = faults.count()
    return right.status, calls


def swept(task):
    key, sweep = task
    if tries.is_late(late):
        return key, None
    return key, sweeper.swept(sweep)._asdict()


def sweeps(case, name, status, calls, most):
    """The sweeps over a command's calls, as pairs of a key and a sweep: those of any size first."""
    for (piece, kind), count in calls.items():
        if not count or (piece and kind == "open"):
            continue
        step = -(-count // most) if piece else 1
        key = f"{case.program} {case.name}: {kind}, {f'pieces of {piece}, ' if piece else ''}step {step}"
        yield key, tries.Sweep(case, name, status, kind, FAULTS[kind], "here", 1, 0, step, piece)


class Sums:
    """What was found of a command."""

    def __init__(self, case):
        self.case, self.ends, self.tried, self.calls = case, collections.Counter(), 0, collections.Counter()

    def add(self, key, found):
        for text in found["shown"]:
            print(f"  WRONG {key}, {text}", flush=True)
        kind = key.split(": ", 1)[1].split(",")[0]
        self.calls[f"{kind}{' in pieces' * ('pieces' in key)}"] += found["tried"]
        self.tried += found["tried"]
        for name, count in found["ends"].items():
            self.ends[f"{kind} {name}"] += count
        if found["threaded"][0]:
            self.ends["beside threads: not tried"] += 1

    def wrong(self):
        return sum(count for name, count in self.ends.items() if name.endswith(": wrong"))

    def tell(self):
        calls = ", ".join(f"{count} {kind}" for kind, count in self.calls.items())
        print(f"{self.case.program} {self.case.name}: tried {calls or 'nothing'}; {sum(self.ends.values())} runs",
              flush=True)


def sweep_all(pool, cases, arguments, state, folder):
    """Each call of each kind of each command in turn; the sums."""
    rights = [os.path.join(folder, f"right-{place}") for place in range(len(cases))]
    counts = pool.map(counted, zip(cases, rights), 1)
    sums, rows = [Sums(case) for case in cases], []
    for place, (case, (status, calls)) in enumerate(zip(cases, counts)):
        rows += [(bool(sweep.piece), key, sweep, place)
                 for key, sweep in sweeps(case, rights[place], status, calls, arguments.most)]
    rows.sort(key=lambda row: row[0])
    places = {key: place for _, key, _, place in rows}
    for key, found in tries.carried_out(pool, swept, [(key, sweep) for _, key, sweep, _ in rows], state):
        sums[places[key]].add(key, found)
    return sums


def ended(words, limit, **how):
    """A run by the real means: its status and both texts, as far as they go into pipes."""
    how = {"stdout": subprocess.PIPE, "stderr": subprocess.PIPE, "stdin": subprocess.DEVNULL, **how}
    run = subprocess.Popen(words, **how)
    try:
        out, err = run.communicate(timeout=limit)
    except subprocess.TimeoutExpired:
        run.kill()
        out, err = run.communicate()
        return shared.Ran(shared.HUNG, out or b"", err or b"", 0, 0)
    return shared.Ran(run.returncode, out or b"", err or b"", 0, 0)


def closed_after(words, limit, size):
    """A run whose reader takes so many bytes and goes."""
    back, front = os.pipe()
    run = subprocess.Popen(words, stdout=front, stderr=subprocess.PIPE, stdin=subprocess.DEVNULL)
    os.close(front)
    took = b""
    while len(took) < size and (piece := os.read(back, size - len(took))):
        took += piece
    os.close(back)
    err = run.communicate(timeout=limit)[1]
    return shared.Ran(run.returncode, took, err, 0, 0)


def full_pipe(words, limit):
    """A run whose output is a pipe that nobody reads, and that doesn't wait."""
    back, front = os.pipe()
    os.set_blocking(front, False)
    with open(back, "rb") as reader:
        run = subprocess.Popen(words, stdout=front, stderr=subprocess.PIPE, stdin=subprocess.DEVNULL)
        err = run.communicate(timeout=limit)[1]
        os.close(front)
        return shared.Ran(run.returncode, reader.read(), err, 0, 0)


def small_file(words, limit, size, folder):
    """A run whose output is a file that can't pass a size."""
    def begin():
        signal.signal(signal.SIGXFSZ, signal.SIG_IGN)
        resource.setrlimit(resource.RLIMIT_FSIZE, (size, size))

    with open(os.path.join(folder, "small"), "w+b") as out:
        ran = ended(words, limit, stdout=out, preexec_fn=begin)
        out.seek(0)
        return ran._replace(out=out.read())


def outputs(case, right, limit, folder):
    """Runs whose output can't be written, each with its name and whether it was right."""
    def unwritten(ran):
        return is_unwritten(ran, right)

    def closed(ran):
        return right.out.startswith(ran.out) and (ran.status, ran.err) in ((0, right.err), (shared.UNWRITTEN, b"6\n"))

    for path, mode in (("/dev/full", "wb"), (case.words[0], "rb")):
        with open(path, mode) as out:
            ran = ended(case.words, limit, stdout=out)
            yield f"to {path if mode == 'wb' else 'a file that is open to read'}", ran, unwritten(ran)
    ran = ended(case.words, limit, stdout=None, preexec_fn=lambda: os.close(1))
    yield "to nothing", ran, unwritten(ran)
    for size in (0, 1, 7, 100, 1000):
        ran = closed_after(case.words, limit, size)
        yield f"to a pipe that is closed after {size} bytes", ran, closed(ran)
    ran = full_pipe(case.words, limit)
    yield "to a full pipe", ran, unwritten(ran) if len(right.out) > 65536 else ran[:3] == right[:3]
    for size in sorted({0, 1, len(right.out) // 2, len(right.out) - 1}):
        ran = small_file(case.words, limit, size, folder)
        yield f"to a file of {size} bytes", ran, unwritten(ran) and len(ran.out) == size
    for what, how in (("closed", {"preexec_fn": lambda: os.close(2)}), ("full", {"stderr": open("/dev/full", "wb")})):
        ran = ended(case.words, limit, **how)
        yield f"with standard error {what}", ran, ran[:2] == right[:2]


def through_pipe(words, place, data, limit, pipe):
    """A run that reads one of its files, of this text, from a named pipe."""
    os.mkfifo(pipe)

    def feed():
        try:
            with open(pipe, "wb") as out:
                for at in range(0, len(data), 700):
                    out.write(data[at : at + 700])
                    out.flush()
        except BrokenPipeError:
            pass

    feeder = threading.Thread(target=feed)
    feeder.start()
    ran = ended([*words[:place], pipe, *words[place + 1 :]], limit)
    if feeder.is_alive():
        # The program may have ended without opening the pipe.
        os.close(os.open(pipe, os.O_RDONLY | os.O_NONBLOCK))
    feeder.join()
    os.unlink(pipe)
    return ran


def inputs(case, right, limit, folder):
    """Runs in which a file can't be read, or isn't a file, each with its name and whether it was right."""
    for place, word in enumerate(case.words):
        if place == 0 or not os.path.isfile(word):
            continue
        run = lambda name: ended([*case.words[:place], name, *case.words[place + 1 :]], limit)
        loop, pipe = os.path.join(folder, "loop"), os.path.join(folder, "pipe")
        if not os.path.islink(loop):
            os.symlink(loop, loop)
        for name in (folder, os.path.join(folder, "none"), os.path.join(word, "below"), loop, "x" * 300, "x/" * 3000):
            ran = run(name)
            yield f"word {place} is {name[:40]}", ran, is_unread(case.program, ran)
        data = shared.read(word)
        ran = through_pipe(case.words, place, data, limit, pipe)
        yield f"word {place} is a pipe", ran, is_like(ran, pipe, right, word)
        for size in (0, 1, len(data) // 2, len(data) - 1):
            cut = shared.write(os.path.join(folder, "cut"), data[:size])
            ran = through_pipe(case.words, place, data[:size], limit, pipe)
            yield f"word {place} is a pipe that ends after {size} bytes", ran, is_like(ran, pipe, run(cut), cut)
        ran = run("/dev/null")
        yield f"word {place} is /dev/null", ran, is_like(ran, "/dev/null", run(shared.write(cut, b"")), cut)
        ran = run("/dev/zero")
        yield f"word {place} is /dev/zero", ran, is_too_long(ran)


def is_like(ran, name, other, other_name):
    """Whether a run over a file ended as the other one, but for the file's name."""
    unnamed = lambda one, file: one.err.replace(file.encode(), b"the file")
    return ran[:2] == other[:2] and unnamed(ran, name) == unnamed(other, other_name)


def is_too_long(ran):
    """The answer of kind 0, or that of near_files in words, or of a module: the file is too long."""
    status, kind = (ran.err.split() + [b"", b""])[:2]
    known = ran.status in (2, 3, 4, 8, 10, 12, 13) and str(ran.status).encode() == status
    refused = known and kind == b"0" and not ran.out
    return refused or ran.status == shared.FAULTY and (b"is longer than" in ran.err or ran.out.startswith(b"long"))


def really(task):
    """The command on files, pipes and devices that fail by themselves: how many runs, and what was wrong."""
    key, (case, limit) = task
    if tries.is_late(late):
        return key, None
    right, count, wrong = ended(case.words, limit), 0, []
    if right.status == shared.DONE:
        for runs in (inputs(case, right, limit, own), outputs(case, right, limit, own)):
            for what, ran, is_right in runs:
                count += 1
                if not is_right:
                    wrong.append(f"{what}: status {ran.status}, {len(ran.out)} bytes written, {ran.err[-200:]!r}")
    return key, {"runs": count, "wrong": wrong}


def really_all(pool, cases, arguments, state):
    """All commands on such files; the counts of commands, of runs and of wrong ones."""
    commands = runs = wrong = 0
    tasks = [(f"really {case.program} {case.name}", (case, arguments.limit)) for case in cases]
    for key, value in tries.carried_out(pool, really, tasks, state):
        for text in value["wrong"][:10]:
            print(f"  WRONG {key}, {text}", flush=True)
        print(f"{key[7:]}: {value['runs']} runs on files, pipes and devices, {len(value['wrong'])} wrong", flush=True)
        commands += bool(value["runs"])
        runs += value["runs"]
        wrong += len(value["wrong"])
    return commands, runs, wrong


def main():
    arguments = shared.arguments_of(__doc__, ("--most", {"type": int, "default": 150}))
    found, begin, sums = shared.programs_in(arguments.programs), time.monotonic(), []
    state, until = tries.State(arguments.state, found), tries.until_of(arguments)
    with tempfile.TemporaryDirectory() as folder:
        library = shared.faults_in(folder)
        cases = shared.cases(folder, found) + shared.long_cases(folder, found)
        cases = [case for case in cases if shared.fits(case, arguments.only)]
        with multiprocessing.Pool(arguments.jobs, ready, (arguments.limit, library, folder, until)) as pool:
            commands, runs, wrong = really_all(pool, cases, arguments, state)
            if arguments.most:
                sums = sweep_all(pool, cases, arguments, state, folder)
    for one in sums:
        one.tell()
    ends = sum((one.ends for one in sums), collections.Counter())
    for end, count in sorted(ends.items()):
        print(f"    {end} {count}")
    wrong += sum(one.wrong() for one in sums)
    tried, copies = sum(one.tried for one in sums), sum(ends.values())
    tries.close(f"reads_writes: {len(sums)} commands, {tried} calls tried in {copies} runs; {commands} commands in "
                f"{runs} runs on files, pipes and devices", wrong, begin)


if __name__ == "__main__":
    main()
