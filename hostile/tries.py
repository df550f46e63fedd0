"""Many runs for one start of a program, by copies that faults.c makes; and what of it is done, in a file that a later
run goes on from."""
import errno
import hashlib
import json
import os
import signal
import struct
import sys
import time
from typing import NamedTuple

import programs as shared

HOWS, SHOWN = 8, 10
ENDS = ("whole", "refused", "silent", "wrong")
FOUND = struct.Struct(f"<6Q{HOWS * 2 * len(ENDS)}Q" + "5q88s" * SHOWN)
ANSWER = struct.Struct("<3q")
ASKED, ANSWERED = 198, 199


class Copies(shared.Runner):
    """Runs copies of programs, each of which was loaded once with its words and stands before its first instruction."""

    def __init__(self, limit, library):
        super().__init__(limit)
        self.library, self.begun = library, {}

    def begin(self, words):
        asked, answered = os.pipe(), os.pipe()
        actions = [(os.POSIX_SPAWN_DUP2, file, number) for file, number in
                   ((self.texts[0], 1), (self.texts[1], 2), (asked[0], ASKED), (answered[1], ANSWERED))]
        environment = {**os.environ, "LD_PRELOAD": self.library, "FAULTS_TRY": "serve"}
        os.posix_spawn(words[0], words, environment, file_actions=actions, setsigdef=[signal.SIGPIPE])
        os.close(asked[0])
        os.close(answered[1])
        return asked[1], answered[0]

    def run_copy(self, words):
        """A run of a copy of the program with these words, whose files may have changed."""
        place = tuple(words)
        if place not in self.begun:
            self.begun[place] = self.begin(words)
        ask, answer = self.begun[place]
        self.clear()
        os.write(ask, struct.pack("<I", int(self.limit) + 1))
        got = os.read(answer, ANSWER.size)
        if len(got) < ANSWER.size:
            sys.exit(f"{words[0]} doesn't begin")
        status, microseconds, kib = ANSWER.unpack(got)
        end = os.waitstatus_to_exitcode(status) if status >= 0 else "no copy"
        hung = end == -signal.SIGALRM
        return shared.Ran(shared.HUNG if hung else end, *self.written(), microseconds / 1e6, kib)


class Sweep(NamedTuple):
    """Calls of one kind that fail one by one in copies of a command's run; `way` is here or whole, as in faults.c."""
    case: shared.Case
    right: str
    status: int
    kind: str
    hows: tuple
    way: str
    first: int
    last: int
    every: int
    piece: int = 0


class Found(NamedTuple):
    """How many calls there are and were tried, where it was too late, those that threads made, and how copies ended."""
    calls: int
    tried: int
    left: int
    threaded: tuple
    ends: dict
    shown: list


def found_in(data, hows):
    numbers = FOUND.unpack(data)
    calls, tried, left, *threaded, wrong = numbers[:6]
    ends, at = {}, 6
    for place in range(HOWS):
        for alone in (0, 1):
            for end in ENDS:
                if numbers[at]:
                    name = f"{hows[place]} {'alone' if alone else 'and all behind it'}: {end}"
                    ends[name] = numbers[at]
                at += 1
    shown = []
    for _ in range(min(wrong, SHOWN)):
        number, how, alone, status, written, said = numbers[at : at + 6]
        said = said.split(b"\0")[0].decode(errors="replace")
        way = "short" if how < 0 else errno.errorcode.get(how, how)
        shown.append(f"{number} {way} {'alone' if alone else 'and all behind it'}: status {status}, {written} bytes "
                     f"written, {said!r}")
        at += 6
    return Found(calls, tried, left, tuple(threaded), ends, shown)


class Sweeper(shared.Runner):
    """Runs sweeps; each of the jobs has its own."""

    def __init__(self, limit, library, folder, until):
        super().__init__(limit)
        self.copies, self.library, self.until = limit, library, until
        self.limit = 24 * 3600
        self.told = os.path.join(folder, f"found-{os.getpid()}")

    def swept(self, sweep):
        """What was found, or a text that says why nothing was."""
        shared.write(self.told, bytes(FOUND.size))
        hows = " ".join("short" if how == "short" else str(getattr(errno, how)) for how in sweep.hows)
        values = {"try": sweep.way, "kind": sweep.kind, "from": sweep.first, "to": sweep.last, "every": sweep.every,
                  "piece": sweep.piece, "hows": hows, "right": sweep.right, "status": sweep.status,
                  "words": int(sweep.case.program == "near_files"), "limit": int(self.copies) + 1,
                  "until": self.until or 0, "found": self.told}
        environment = {f"FAULTS_{name.upper()}": str(value) for name, value in values.items()}
        ran = self.run(sweep.case.words, {"LD_PRELOAD": self.library, **environment})
        with open(self.told, "rb") as told:
            found = found_in(told.read(), sweep.hows)
        right = sweep.status if sweep.way == "here" else 0
        same = [shared.read(f"{sweep.right}.{part}") for part in ("out", "err")] if sweep.way == "here" else [b"", b""]
        if ran.status != right or (sweep.way == "here" and [ran.out, ran.err] != same):
            text = f"the run itself ended with status {ran.status} for {right}, {ran.err[-200:]!r}"
            found = found._replace(ends={**found.ends, "the run itself: wrong": 1}, shown=[*found.shown, text])
        return found


class State:
    """What a script has done: a line of JSON for each task. Lines of other programs or another script don't count."""

    def __init__(self, path, found):
        names = ("chains.py", "faults.c", "programs.py", "tries.py", "wasm.py")
        own = [sys.argv[0], *(os.path.join(shared.HERE, name) for name in names)]
        self.mark = hashlib.sha256(b"".join(shared.read(file) for file in [*sorted(found.values()), *own])).hexdigest()
        self.path, self.values = path, {}
        if path and os.path.exists(path):
            with open(path) as lines:
                for line in lines:
                    mark, key, value = json.loads(line)
                    if mark == self.mark:
                        self.values[key] = value

    def put(self, key, value):
        self.values[key] = value
        if self.path:
            with open(self.path, "a") as lines:
                lines.write(json.dumps([self.mark, key, value]) + "\n")


left = 0


def carried_out(pool, work, tasks, state):
    """The value of each task, a pair of a key and what `work` is given with it: those that stand in the state first.
    A task that would begin too late has no value, and isn't among them; one that was left in the middle has one, which
    doesn't come into the state."""
    global left
    todo = []
    for key, task in tasks:
        if key in state.values:
            yield key, state.values[key]
        else:
            todo.append((key, task))
    left += len(todo)
    for key, value in pool.imap_unordered(work, todo):
        if value is not None:
            if not value.get("left"):
                state.put(key, value)
                left -= 1
            yield key, value


def close(line, wrong, begin):
    """Prints the last line of a script, and ends it."""
    end = f"{left} tasks left" if left else "whole"
    print(f"{line}; {wrong} wrong, {time.monotonic() - begin:.0f} s, {end}", flush=True)
    sys.exit(1 if wrong else 0)


def is_late(until):
    return bool(until) and time.monotonic() > until


def until_of(arguments):
    return time.monotonic() + 60 * arguments.minutes if arguments.minutes else 0
