"""What the scripts of this folder share: the programs, a run of one of them, the chains that they run on."""
import argparse
import json
import os
import resource
import signal
import struct
import subprocess
import sys
from typing import NamedTuple

import chains
import wasm
from chains import example

HERE = os.path.dirname(os.path.abspath(__file__))
NAMES = ("near_serial", "near_replay", "near_audit", "near_files", "near_module")
DONE, USAGE, UNREADABLE, UNWRITTEN, NO_MEMORY, FAULTY, UNEXPLAINED = 0, 1, 5, 6, 7, 20, 21
HUNG = "hung"


def arguments_of(about, *more):
    """The arguments of a script: those that all have, and its own, each a pair of a name and what argparse takes."""
    parser = argparse.ArgumentParser(description=about, formatter_class=argparse.RawDescriptionHelpFormatter)
    parser.add_argument("--programs", default=os.path.join(HERE, "..", "crates"),
                        help="the folder that has NAME/out/NAME, or NAME, of each program (crates)")
    parser.add_argument("--only", help="the cases whose name contains this word")
    parser.add_argument("--jobs", type=int, default=len(os.sched_getaffinity(0)), help="how many runs at once")
    parser.add_argument("--limit", type=float, default=60, help="seconds after which a run counts as hung (60)")
    parser.add_argument("--minutes", type=float, help="begin nothing more after so many minutes")
    parser.add_argument("--state", help="a file of what is done: what stands there isn't run again")
    for name, how in more:
        parser.add_argument(name, **how)
    return parser.parse_args()


def programs_in(folder):
    """The path of each program that is there."""
    found = {}
    for name in NAMES:
        for path in (os.path.join(folder, name, "out", name), os.path.join(folder, name)):
            if os.path.isfile(path):
                found[name] = os.path.abspath(path)
    if not found:
        sys.exit(f"no program in {folder}: build them first (rt ci at the top of the repository)")
    return found


class Ran(NamedTuple):
    """How a run ended: its status (below 0 a signal), its texts, its processor seconds, the most KiB that it held."""
    status: object
    out: bytes
    err: bytes
    processor: float
    memory: int


class Runner:
    """Runs programs, one at a time; each of the jobs has its own."""

    def __init__(self, limit=60):
        self.limit = limit
        self.texts = [os.memfd_create(name) for name in ("out", "err")]
        self.child = 0
        self.hung = False
        signal.signal(signal.SIGALRM, self.stop)

    def stop(self, *_):
        self.hung = True
        if self.child:
            os.kill(self.child, signal.SIGKILL)

    def clear(self):
        for text in self.texts:
            os.ftruncate(text, 0)
            os.lseek(text, 0, os.SEEK_SET)

    def written(self):
        return [os.pread(text, os.fstat(text).st_size, 0) for text in self.texts]

    def run(self, words, environment=None):
        """A run with the words, and with these changes of the environment."""
        self.clear()
        actions = [(os.POSIX_SPAWN_DUP2, text, number) for text, number in zip(self.texts, (1, 2))]
        self.hung = False
        self.child = os.posix_spawn(words[0], words, {**os.environ, **(environment or {})}, file_actions=actions,
                                    setsigdef=[signal.SIGPIPE])
        signal.setitimer(signal.ITIMER_REAL, self.limit)
        _, status, used = os.wait4(self.child, 0)
        self.child = 0
        signal.setitimer(signal.ITIMER_REAL, 0)
        return Ran(HUNG if self.hung else os.waitstatus_to_exitcode(status), *self.written(),
                   used.ru_utime + used.ru_stime, used.ru_maxrss)


def limited(words, limits, user=None, seconds=60, environment=None):
    """A run under limits of resources, as {resource.RLIMIT_STACK: 262144}, maybe by another user."""
    def begin():
        for what, most in limits.items():
            resource.setrlimit(what, (most, most))

    try:
        done = subprocess.run(words, capture_output=True, preexec_fn=begin, user=user, timeout=seconds,
                              env={**os.environ, **(environment or {})})
    except subprocess.TimeoutExpired as late:
        return Ran(HUNG, late.stdout or b"", late.stderr or b"", 0, 0)
    return Ran(done.returncode, done.stdout, done.stderr, 0, 0)


def faults_in(folder):
    """Compiles faults.c into the folder."""
    made = os.path.join(folder, "faults.so")
    words = [os.environ.get("CC", "cc"), "-O2", "-shared", "-fPIC", "-o", made, os.path.join(HERE, "faults.c"), "-ldl"]
    subprocess.run(words, check=True)
    return made


class Faults:
    """The environment of a run in which calls of one kind fail, and the count of these calls."""

    def __init__(self, library, folder):
        self.library = library
        self.told = os.path.join(folder, f"told-{os.getpid()}")

    def of(self, kind, first=0, many=0, how="", every=1, pause=0, piece=0):
        with open(self.told, "wb") as out:
            out.write(bytes(8))
        values = {"told": self.told, "kind": kind, "from": first, "many": many, "how": how, "every": every,
                  "pause": pause, "piece": piece}
        return {"LD_PRELOAD": self.library, **{f"FAULTS_{name.upper()}": str(value) for name, value in values.items()}}

    def count(self):
        with open(self.told, "rb") as told:
            return struct.unpack("<Q", told.read())[0]


def tell(name, ran, what):
    """Prints a run that was wrong."""
    ended = f"status {ran.status}, {len(ran.out)} bytes written, {ran.err[-200:]!r}"
    print(f"  WRONG {name}, {what}: {ended}", flush=True)


class Case(NamedTuple):
    """A command: its name, the program, and the words behind it."""
    name: str
    program: str
    words: list


class Made(NamedTuple):
    """What near_serial makes of the chain of examples/contract behind the chunk of height 4 in shard 0: the root of
    its outcomes with all their proofs, the root of its state, the state as one part, and as three. The chunk itself,
    gathered, with the configuration's file and its lines, each pair also for a chunk to which lists were carried."""
    items: str
    proofs: list
    state: str
    whole: bytes
    parts: list
    gathered: list


CHAIN = [example("config", "generated.json"), example("contract", "genesis"), example("contract", "blocks")]
RESHARDED = ["free", example("reshard", "genesis"), example("reshard", "blocks")]


def lines_of(report, height, shard):
    """The lines of a chunk in a report."""
    begin = report.index(b"chunk %d %d " % (height, shard))
    ends = [at for word in (b"\nchunk ", b"\ntotal ") if (at := report.find(word, begin)) >= 0]
    return report[begin : min(ends) + 1]


def made_by(program):
    def text(verb, *words, chain=CHAIN):
        return subprocess.run([program, verb, *chain, *words], check=True, stdout=subprocess.PIPE).stdout

    def root(verb, begin):
        return next(line.split()[3].decode() for line in text(verb).splitlines() if line.startswith(begin))

    def gathered(chain, height, shard):
        lines = lines_of(text("run", chain=chain), height, shard)
        return chain[0], text("gather", str(height), str(shard), chain=chain), lines

    return Made(root("roots", b"roots 4 0 "), [text("prove", "4", "0", "outcome", str(place)) for place in range(3)],
                root("run", b"chunk 4 0 "), text("part", "4", "0", "1", "0"),
                [text("part", "4", "0", "3", str(number)) for number in range(3)],
                [gathered(CHAIN, 4, 0), gathered(CHAIN, 3, 0), gathered(RESHARDED, 2, 1)])


def made_cases(folder, program):
    """The commands on roots, proofs, parts and gathered chunks."""
    at = lambda name: os.path.join(folder, name)
    made = made_by(program)
    proof = write(at("proof"), made.proofs[1])
    parts = [write(at(f"part{number}"), data) for number, data in enumerate(made.parts)]
    config, gathered, _ = made.gathered[0]
    chunk, carried = write(at("gathered"), gathered), write(at("carried"), made.gathered[2][1])
    return [
        ("roots", "near_serial", ["roots", *CHAIN]),
        ("prove", "near_serial", ["prove", *CHAIN, "4", "0", "outcome", "1"]),
        ("prove nothing", "near_serial", ["prove", *CHAIN, "4", "0", "receipt", "9"]),
        ("verify", "near_serial", ["verify", made.items, proof]),
        ("part", "near_serial", ["part", *CHAIN, "4", "0", "3", "1"]),
        ("part behind the change", "near_serial", ["part", *RESHARDED, "2", "1", "2", "0"]),
        ("checkpart", "near_serial", ["checkpart", made.state, parts[1]]),
        ("checkpart refused", "near_serial", ["checkpart", made.items, parts[1]]),
        ("joinparts", "near_serial", ["joinparts", made.state, "3", at("part")]),
        ("gather", "near_serial", ["gather", *CHAIN, "4", "0"]),
        ("gather behind the change", "near_serial", ["gather", *RESHARDED, "2", "1"]),
        ("gather nothing", "near_serial", ["gather", *CHAIN, "99", "0"]),
        ("recheck", "near_serial", ["recheck", config, chunk]),
        ("recheck behind the change", "near_serial", ["recheck", "free", carried]),
        ("recheck refused", "near_serial", ["recheck", config, parts[1]]),
        ("show proof", "near_files", ["show", "proof", proof]),
        ("show proof compact", "near_files", ["show", "--compact", "proof", proof]),
        ("show part", "near_files", ["show", "part", parts[1]]),
        ("show part compact", "near_files", ["show", "--compact", "part", parts[1]]),
        ("show gathered", "near_files", ["show", "gathered", chunk]),
        ("show gathered compact", "near_files", ["show", "--compact", "gathered", carried]),
    ]


def write(path, data):
    with open(path, "wb") as out:
        out.write(data)
    return path


def read(path):
    with open(path, "rb") as file:
        return file.read()


def chain_cases(at, config, people):
    """Runs of chains by the programs that replay them, as (name, program, words)."""
    priced, genesis = CHAIN[:2]
    blocks, actions = write(at("blocks"), chains.busy_blocks()), write(at("actions"), chains.every_action())
    schedule, steps = write(at("schedule"), chains.SCHEDULE), write(at("steps"), chains.STEPS)
    four = ["free", *(example("four_shards", part) for part in ("genesis", "blocks"))]
    changing = [config, people, write(at("changing"), chains.resharded())]
    rows = [("", CHAIN), (" delayed", [config, genesis, blocks]), (" four shards", four),
            (" every action", [config, people, actions]), (" changing boundaries", changing)]
    for verb, program in (("run", "near_serial"), ("replay", "near_replay"), ("gather", "near_audit")):
        for name, words in rows:
            yield f"{'archive' if verb == 'gather' else verb}{name}", program, [verb, *words]
    yield "check", "near_serial", ["check", config, genesis, blocks, schedule]
    yield "check changing boundaries", "near_serial", ["check", *changing, steps]
    yield "roots changing boundaries", "near_serial", ["roots", *changing]
    yield "gen", "near_serial", ["gen", "7", "3", "8"]
    yield "replay gen", "near_replay", ["gen", "7", "3", "2"]
    yield "run refused", "near_serial", ["run", priced, blocks, blocks]
    yield "archive refused", "near_audit", ["gather", priced, genesis, genesis]
    yield "replay refused", "near_replay", ["replay", priced, genesis, genesis]
    for name, program in (("", "near_serial"), ("replay ", "near_replay"), ("archive ", "near_audit")):
        yield f"{name}no command", program, ["walk", "free"]
    yield "archive help", "near_audit", ["help"]
    yield "archive version", "near_audit", ["version"]


def file_cases(at, config, people):
    """Commands of near_files, as (name, program, words)."""
    priced, genesis = CHAIN[:2]
    texts = lambda name: [example(name, f"{file}.json") for file in ("genesis", "blocks")]
    blocks, spoken = at("blocks"), write(at("spoken.json"), chains.spoken_blocks())
    steps, none = example("reshard", "steps"), write(at("no-steps"), b"open 0\nclose 0\n")
    failed = ["run", "01" * 32, "failure", "0", "16", "14", "83", "8300"]
    rows = [
        ("genesis", ["genesis", priced, example("contract", "genesis.json")]),
        ("genesis refused", ["genesis", priced, example("contract", "blocks.json")]),
        ("blocks", ["blocks", example("four_shards", "blocks.json")]),
        ("blocks changing boundaries", ["blocks", example("reshard", "blocks.json")]),
        ("blocks in other words", ["blocks", spoken]),
        ("replay texts", ["replay", priced, *texts("contract")]),
        ("replay texts in other words", ["replay", priced, texts("contract")[0], spoken]),
        ("replay texts refused", ["replay", priced, texts("contract")[0], texts("reshard")[1]]),
        ("check texts", ["check", "free", *texts("reshard"), steps]),
        ("check texts refused", ["check", "free", *texts("reshard"), none]),
        ("hex", ["hex", at("module")]),
        ("show report", ["show", "report", example("contract", "report")]),
        ("show report refused", ["show", "report", genesis]),
        ("explain", ["explain", "3", "4", "0", "182", "100"]),
        ("explain a line", ["explain", " ".join(failed)]),
        ("explain a line of a program", ["explain", "near_module", "at", "3", "120"]),
        ("explain nothing", ["explain", "3", "4", "0", "182"]),
        ("files help", ["help"]), ("files help of a command", ["help", "check"]),
        ("files help of a program", ["help", "near_serial"]), ("files version", ["version"]),
        ("files no command", ["show", "--compact"]),
    ]
    shown = [("genesis", [config, people]), ("blocks", [blocks]), ("blocks", [at("changing")])]
    for number, (kind, words) in enumerate(shown):
        name = f"{kind}{' changing boundaries' * (number == 2)}"
        rows += [(f"show {name}", ["show", kind, *words]),
                 (f"show {name} compact", ["show", "--compact", kind, *words])]
    return [(name, "near_files", words) for name, words in rows]


def module_cases(at):
    """Commands of near_module, as (name, program, words)."""
    priced = CHAIN[0]
    module, contract = write(at("module"), wasm.lively()), write(at("contract"), chains.example_code())
    deep, stopping = write(at("recursing"), wasm.recursing()), write(at("stopping"), wasm.stopping())
    unfit, broken = write(at("unfit"), wasm.unfit()), write(at("broken"), wasm.lively()[:-3])
    called = ["call", priced, contract]
    rows = [
        ("check", ["check", priced, module]), ("check no module", ["check", priced, broken]),
        ("check what doesn't fit", ["check", priced, unfit]),
        ("run", ["run", priced, module, "run", "100000"]), ("run no method", ["run", priced, module, "walk", "9"]),
        ("trap", ["trap", priced, module, "run", "100000"]), ("trap at once", ["trap", priced, stopping, "run", "9"]),
        ("trap in calls without end", ["trap", priced, deep, "run", "100000"]),
        ("call", ["call", priced, module, "run", "hex:", "100000", "5"]),
        ("call with promises", [*called, "ask", "hello", "100000"]),
        ("call that stores", [*called, "put", "hex:00ff", "100000", "7"]),
        ("call that fails", [*called, "done", "hello", "100000"]),
        ("call without gas", [*called, "ask", "hello", "700"]),
        ("list", ["list", contract]), ("list no module", ["list", broken]),
        ("text", ["text", contract]), ("text with all sections", ["text", module]),
        ("text no module", ["text", broken]),
        ("help", ["help"]), ("version", ["version"]), ("no command", ["call", priced, contract]),
    ]
    return [(f"module {name}", "near_module", words) for name, words in rows]


def cases(folder, programs):
    """Each command of the programs that are there, on chains with contracts, promises and delayed receipts."""
    at = lambda name: os.path.join(folder, name)
    people = write(at("people"), chains.people(chains.example_code()))
    config = write(at("config"), chains.busy_config())
    rows = [*module_cases(at), *chain_cases(at, config, people), *file_cases(at, config, people)]
    if "near_serial" in programs:
        rows += made_cases(folder, programs["near_serial"])
    return [Case(name, program, [programs[program], *words]) for name, program, words in rows if program in programs]


def wide_cases(at, program):
    """The commands on a state with many data, and on what the program makes of it, as (name, program, words)."""
    data = [(b"key %06d" % number, b"v" * 64) for number in range(1000)]
    alice = {b"alice": (10**20, None, [(chains.KEY, chains.FOR_ALL)], data)}
    moved = chains.transaction(1, b"alice", [b"\3" + chains.u128(1)])
    chain = ["free", write(at("wide"), chains.genesis([], alice)), write(at("wide-blocks"), chains.blocks([[[moved]]]))]
    chunk, whole = ["1", "0"], ["1", "0", "1", "0"]

    def text(verb, *words):
        return subprocess.run([program, verb, *chain, *words], check=True, stdout=subprocess.PIPE).stdout

    root = text("run").split()[3].decode()
    part, gathered = write(at("wide-part0"), text("part", *whole)), write(at("wide-gathered"), text("gather", *chunk))
    return [
        ("part long", "near_serial", ["part", *chain, *whole]),
        ("checkpart long", "near_serial", ["checkpart", root, part]),
        ("joinparts long", "near_serial", ["joinparts", root, "1", at("wide-part")]),
        ("gather long", "near_serial", ["gather", *chain, *chunk]),
        ("recheck long", "near_serial", ["recheck", "free", gathered]),
        ("show part long", "near_files", ["show", "part", part]),
        ("show gathered long", "near_files", ["show", "gathered", gathered]),
    ]


def long_cases(folder, programs):
    """Commands on long files, most of them with texts that are longer than a pipe holds."""
    at = lambda name: os.path.join(folder, name)
    heights = range(1, 1001)
    blocks = write(at("long"), chains.blocks([[[], []]] * len(heights)))
    rows = [{"height": height, "timestamp": height * 10**9, "chunks": [[], []]} for height in heights]
    text = write(at("long.json"), json.dumps({"blocks": rows}).encode())
    module = write(at("many"), wasm.whole([wasm.NOTHING], [0] * 20_000, [wasm.body(b"")] * 20_000, [("run", 0)]))
    report = write(at("long-report"), b"log " + b"00" * 100_000 + b"\n")
    chain = ["free", example("contract", "genesis"), blocks]
    told, rest = ["free", example("contract", "genesis.json"), text], write(at("rest"), b"rest\n")
    rows = [
        ("run long", "near_serial", ["run", *chain]),
        ("check long", "near_serial", ["check", *chain, rest]),
        ("roots long", "near_serial", ["roots", *chain]),
        ("replay long", "near_replay", ["replay", *chain]),
        ("archive long", "near_audit", ["gather", *chain]),
        ("blocks long", "near_files", ["blocks", text]),
        ("show blocks long", "near_files", ["show", "blocks", blocks]),
        ("show report long", "near_files", ["show", "report", report]),
        ("replay texts long", "near_files", ["replay", *told]),
        ("check texts long", "near_files", ["check", *told, rest]),
        ("hex long", "near_files", ["hex", module]),
        ("module long", "near_module", ["check", "free", module]),
        ("module list long", "near_module", ["list", module]),
        ("module text long", "near_module", ["text", module]),
    ]
    if "near_serial" in programs:
        rows += wide_cases(at, programs["near_serial"])
    return [Case(name, program, [programs[program], *words]) for name, program, words in rows if program in programs]


def fits(case, only):
    return not only or only in case.name or only in case.program
