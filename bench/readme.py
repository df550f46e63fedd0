#!/usr/bin/env python3
"""Follows README.md and the pages of examples/ word for word, and compares what comes out with what they say.

usage: bench/readme.py [--quick|--built] [--only PAGE]

It works in a copy of the repository's files, in which it runs each line of the pages that calls `rt try`, as it stands
there: a dozen builds of a minute or two each. With --quick the words of these lines are run together, by one build or
two of each program; with --built the lines of proved programs are run in their place, from crates/NAME/out, where
`rt ci` has left them. What a page says without a line of its own (that a JSON text makes these bytes, what another
amount of gas leads to) is tried with the same programs. PAGE is readme, one_transfer, four_shards, reshard, config,
contract or library. It ends with status 0 where all agreed, and else tells what didn't.
"""
import argparse
import json
import os
import re
import shlex
import shutil
import subprocess
import sys
import tempfile
from typing import NamedTuple, Optional

TOP = os.path.realpath(os.path.join(os.path.dirname(os.path.abspath(__file__)), ".."))
PROGRAMS = ("near_files", "near_serial", "near_replay", "near_module")
TRANSFER = "examples/one_transfer"
CONTRACT = "examples/contract"
SHARDS = "examples/four_shards"
RESHARD = "examples/reshard"
CONFIG = "examples/config"


class Shell(NamedTuple):
    """Lines for a shell, in the copy."""
    lines: str


class Call(NamedTuple):
    """A program with its words, and maybe a file that takes its output."""
    program: str
    words: list
    into: Optional[str] = None


class Copy:
    """A copy of the repository's files, and how commands are run in it."""

    def __init__(self, folder, way):
        self.folder, self.way = folder, way
        self.ran = {}
        listed = ["git", "-C", TOP, "ls-files", "-z", "--cached", "--others", "--exclude-standard"]
        for path in subprocess.run(listed, check=True, stdout=subprocess.PIPE).stdout.decode().split("\0"):
            if path and os.path.exists(os.path.join(TOP, path)):
                os.makedirs(os.path.dirname(self.at(path)), exist_ok=True)
                shutil.copy2(os.path.join(TOP, path), self.at(path))

    def at(self, path):
        return os.path.join(self.folder, path)

    def page(self, path):
        return self.data(path).decode()

    def data(self, path):
        with open(self.at(path), "rb") as file:
            return file.read()

    def write(self, path, data):
        with open(self.at(path), "wb") as file:
            file.write(data)

    def step(self, line):
        """What a line of a page asks for: the line itself, or the call that it makes."""
        tried = re.fullmatch(r"\(cd crates/(\w+) && rt try -- (.*?)(?: > (\S+))?\)", line)
        if self.way == "built":
            return Shell(re.sub(r"^crates/", f"{TOP}/crates/", line))
        if self.way == "quick" and tried:
            words = shlex.split(tried[2].replace("$OLDPWD", self.folder))
            return Call(tried[1], words, tried[3])
        return Shell(line)

    def shell(self, lines):
        """What lines of a shell write. What was run before isn't run again."""
        if lines not in self.ran:
            path = ":".join([os.path.join(TOP, "crates", name, "out") for name in PROGRAMS] + [os.environ["PATH"]])
            env = {**os.environ, "PATH": path} if self.way == "built" else os.environ
            words = ["bash", "-e", "-c", lines]
            done = subprocess.run(words, cwd=self.folder, env=env, capture_output=True)
            if done.returncode != 0:
                print(f"status {done.returncode}: {lines}", file=sys.stderr)
                print(done.stderr.decode(errors="replace")[-1000:], file=sys.stderr)
            self.ran[lines] = done.stdout
        return self.ran[lines]

    def whole(self, word):
        return self.at(word) if word.startswith("examples/") else word

    def calls(self, program, calls):
        """What a program writes for each of some calls, by one build."""
        words = [[self.whole(word) for word in call.words] for call in calls]
        if self.way == "built":
            path = os.path.join(TOP, "crates", program, "out", program)
            told = [subprocess.run([path] + row, stdout=subprocess.PIPE).stdout for row in words]
        else:
            told = self.cases(program, words)
        for call, data in zip(calls, told):
            if call.into:
                with open(call.into, "wb") as file:
                    file.write(data)
        return told

    def cases(self, program, words):
        with tempfile.TemporaryDirectory() as folder:
            for number, row in enumerate(words):
                open(os.path.join(folder, f"case{number}"), "w").close()
                with open(os.path.join(folder, f"case{number}.args"), "w") as file:
                    file.write("".join(word + "\n" for word in row))
            tried = ["rt", "try", "--cases", folder]
            done = subprocess.run(tried, cwd=self.at(f"crates/{program}"), capture_output=True)
        parts = re.split(rb"^== case(\d+)\n", done.stdout, flags=re.M)
        told = {int(number): text for number, text in zip(parts[1::2], parts[2::2])}
        if len(told) != len(words):
            print(done.stderr.decode(errors="replace")[-2000:], file=sys.stderr)
        return [told.get(number, b"") for number in range(len(words))]


class Judge:
    """Counts what was tried, and prints each."""

    def __init__(self):
        self.tried = self.wrong = 0

    def says(self, what, so):
        self.tried += 1
        self.wrong += not so
        print(f"{'ok   ' if so else 'WRONG'} {what}", flush=True)


def follow(copy, pages):
    """Runs pages beside each other. Each yields lists of steps and is sent what they write."""
    waiting = [(page, *begun(page, None)) for page in pages]
    waiting = [entry for entry in waiting if entry[1] is not None]
    while waiting:
        ready = [(page, steps, told) for page, steps, told in waiting if None not in told]
        if not ready:
            answer(copy, waiting)
            continue
        waiting = [entry for entry in waiting if None in entry[2]]
        for page, _, told in ready:
            steps, told = begun(page, told)
            if steps is not None:
                waiting.append((page, steps, told))


def begun(page, told):
    """The next steps of a page, with what is known of them; none where it has ended."""
    try:
        steps = page.send(told)
    except StopIteration:
        return None, None
    return steps, [None] * len(steps)


def answer(copy, waiting):
    """Runs all lines that wait, or else all calls of one program."""
    open_steps = [(steps, told, at) for _, steps, told in waiting for at in range(len(steps)) if told[at] is None]
    lines = [entry for entry in open_steps if isinstance(entry[0][entry[2]], Shell)]
    for steps, told, at in lines:
        told[at] = copy.shell(steps[at].lines)
    if lines:
        return
    program = next(name for name in PROGRAMS if any(steps[at].program == name for steps, _, at in open_steps))
    chosen = [entry for entry in open_steps if entry[0][entry[2]].program == program]
    for (_, told, at), data in zip(chosen, copy.calls(program, [steps[at] for steps, _, at in chosen])):
        told[at] = data


FENCED = re.compile(r"^```(\w*)\n(.*?)^```\n", re.M | re.S)


def blocks(text, language):
    """The bodies of a page's blocks of code."""
    return [body for found, body in FENCED.findall(text) if found == language]


def spans(text):
    """The spans of code outside of blocks."""
    return re.findall(r"`([^`\n]+)`", FENCED.sub("", text))


def command(text, begin):
    """The one line or span of a page that begins so."""
    found = {line for line in re.findall(r"^\(.*\)$", text, re.M) + spans(text) if line.startswith(begin)}
    if len(found) != 1:
        sys.exit(f"a page has {len(found)} commands that begin with {begin}")
    return found.pop()


def is_word(told, word):
    """Whether a word of a page stands for a word: whole, its ends around two dots, or the first digits of a hash."""
    if ".." in told:
        begin, end = told.split("..", 1)
        return word.startswith(begin) and word.endswith(end)
    return word == told or len(word) == 64 and re.fullmatch("[0-9a-f]{4}", told) and word.startswith(told)


def is_line(told, line):
    told, line = told.split(" "), line.split(" ")
    return len(told) == len(line) and all(map(is_word, told, line))


def are_lines(told, data):
    """Whether a page's lines are those of a text; None stands for some lines."""
    lines, at = data.decode().splitlines(), 0
    for number, line in enumerate(told):
        if line is None:
            while at < len(lines) and number + 1 < len(told) and not is_line(told[number + 1], lines[at]):
                at += 1
        elif at < len(lines) and is_line(line, lines[at]):
            at += 1
        else:
            return False
    return at == len(lines)


def between(text, begin, end):
    return text[text.index(begin) : text.index(end)]


def rows(text):
    """The lines in the first column of a table, each a span of code; two dots stand for some."""
    told = []
    for cell in re.findall(r"^\| (`.*?) \| ", text, re.M):
        told += [span or None for span, _ in re.findall(r"`([^`]+)`|(?<= )(\.\.)(?=,)", cell)]
    return told


def readme(copy, judge):
    text = copy.page("README.md")
    tried, changed, built = [block for block in blocks(text, "sh") if block != "rt ci\n"]
    table = rows(between(text, "It prints this", "To give Alice"))
    if copy.way == "built":
        path, *lines = built.splitlines()
        judge.says("README: the path names all programs", all(f"crates/{name}/out" in path for name in PROGRAMS))
        serial = Call("near_serial", ["run", "free", f"{SHARDS}/genesis", f"{SHARDS}/blocks"])
        report, threads, sentence, shards = yield [copy.step(line) for line in lines] + [serial]
        judge.says("README: near_serial run prints the table's lines", are_lines(table, report))
        judge.says("README: near_replay replay prints what near_serial run does", threads == shards != b"")
        begin = "The genesis is refused: entry 0"
        told = [span for span in spans(copy.page("docs/FORMATS.md")) if span.startswith(begin)]
        judge.says("README: near_files explain prints the sentence of FORMATS", sentence.decode().removesuffix("\n") in told)
        return
    report, threads = yield [copy.step(tried.strip()), copy.step(command(text, "(cd crates/near_replay"))]
    judge.says("README: the first line prints the table's lines", are_lines(table, report))
    ends = threads.startswith(b"chunk 1 0 ") and threads.count(b"\ntotal ") == 5
    judge.says("README: the four shards run by threads", ends)
    for line in changed.splitlines():
        shown, = yield [copy.step(line)]
    told = [span for span in spans(text) if span.startswith('{"line"')]
    lines = shown.decode().splitlines()
    so = set(told) <= set(lines) and all(map(json.loads, lines))
    judge.says("README: with 250 for Alice the report is as said", so)


def files_of(copy, judge, folder, config):
    """The sizes that a page tells of an example's files, and that its JSON texts make them."""
    text = copy.page(f"{folder}/README.md")
    words = [["genesis", config, f"{folder}/genesis.json"], ["blocks", f"{folder}/blocks.json"]]
    made = yield [Call("near_files", row) for row in words]
    for name, data in zip(("genesis", "blocks"), made):
        file = copy.data(f"{folder}/{name}")
        judge.says(f"{folder}: {name} has {len(file):,} bytes", f"{len(file):,}" in text)
        judge.says(f"{folder}: {name}.json makes {name}", data == file)


def in_one_step(copy, judge, folder, config, words, text):
    """That `near_files` makes an example's JSON texts in one step into what it shows of a text."""
    copy.write(f"{folder}/text", text)
    verb, *more = words
    texts = [verb, config, f"{folder}/genesis.json", f"{folder}/blocks.json", *more]
    tried, shown = yield [Call("near_files", texts), Call("near_files", ["show", "report", f"{folder}/text"])]
    judge.says(f"{folder}: near_files {verb} does it in one step", tried == shown != b"")


def line_of(copy, folder, program):
    begin = f"crates/{program}/out" if copy.way == "built" else f"(cd crates/{program}"
    return copy.step(command(copy.page(f"{folder}/README.md"), begin))


def one_transfer(copy, judge):
    yield from files_of(copy, judge, TRANSFER, "free")
    shown = [["show", "genesis", "free", f"{TRANSFER}/genesis"], ["show", "blocks", f"{TRANSFER}/blocks"]]
    *texts, report = yield [Call("near_files", words) for words in shown] + [line_of(copy, TRANSFER, "near_serial")]
    for name, data in zip(("genesis", "blocks"), texts):
        judge.says(f"{TRANSFER}: {name} is shown as {name}.json", data == copy.data(f"{TRANSFER}/{name}.json"))
    table = rows(between(copy.page("README.md"), "It prints this", "To give Alice"))
    judge.says(f"{TRANSFER}: the line prints README's lines", are_lines(table, report))
    yield from in_one_step(copy, judge, TRANSFER, "free", ["replay"], report)


def four_shards(copy, judge):
    yield from files_of(copy, judge, SHARDS, "free")
    serial = Call("near_serial", ["run", "free", f"{SHARDS}/genesis", f"{SHARDS}/blocks"])
    threads, report = yield [line_of(copy, SHARDS, "near_replay"), serial]
    judge.says(f"{SHARDS}: the line prints what the serial run does", threads == report != b"")


def reshard(copy, judge):
    yield from files_of(copy, judge, RESHARD, "free")
    text = copy.page(f"{RESHARD}/README.md")
    files = ["free", f"{RESHARD}/genesis", f"{RESHARD}/blocks"]
    threads = Call("near_replay", ["replay", *files])
    told = [span for span in spans(text) if span.startswith(("check free", "near_serial gather"))]
    calls = [Call("near_serial", told[0].split()), Call("near_serial", told[1].split()[1:], copy.at("chunk"))]
    report, beside, driven, _ = yield [line_of(copy, RESHARD, "near_serial"), threads, *calls]
    judge.says(f"{RESHARD}: near_replay replay prints what the line does", beside == report != b"")
    answers = [line for line in driven.decode().splitlines() if line.startswith(("ok", "no "))]
    judge.says(f"{RESHARD}: each step has an answer", len(answers) == len(copy.page(f"{RESHARD}/steps").splitlines()))
    refused = [span for span in spans(text) if span.startswith("no ")]
    judge.says(f"{RESHARD}: {' and '.join(refused)}", refused == [answer for answer in answers if answer != "ok"])
    again, = yield [Call("near_serial", ["recheck", "free", copy.at("chunk")])]
    judge.says(f"{RESHARD}: recheck prints the chunk's lines of the run", again != b"" and again in report)
    yield from in_one_step(copy, judge, RESHARD, "free", ["check", f"{RESHARD}/steps"], driven)


def config(copy, judge):
    files = [f"{TRANSFER}/genesis", f"{TRANSFER}/blocks"]
    names = ["free"] + [f"{CONFIG}/{name}.json" for name in ("free", "receipt_fees", "generated")]
    calls = [Call("near_serial", ["run", name, *files]) for name in names]
    plain, free, fees, generated, line = yield calls + [line_of(copy, CONFIG, "near_serial")]
    judge.says(f"{CONFIG}: free.json is as the word", plain == free != b"")
    burnt = [row.split()[-1] for row in fees.decode().splitlines() if row.startswith("chunk")]
    left = "total accounts 117" in fees.decode().splitlines()
    judge.says(f"{CONFIG}: receipt_fees.json burns 1 and 2, and leaves 117", burnt == ["1", "2"] and left)
    refused = [span for span in spans(copy.page(f"{CONFIG}/README.md")) if span.startswith("refused")]
    judge.says(f"{CONFIG}: with generated.json {refused[0]}", f" {refused[0]}\n" in generated.decode())
    judge.says(f"{CONFIG}: the line prints the report with fees", line == fees != b"")


def contract(copy, judge):
    yield from files_of(copy, judge, CONTRACT, f"{CONFIG}/generated.json")
    text = copy.page(f"{CONTRACT}/README.md")
    entries = json.loads(copy.page(f"{CONTRACT}/genesis.json"))["entries"]
    codes = [bytes.fromhex(entry["code"]) for entry in entries if entry["kind"] == "code"]
    judge.says(f"{CONTRACT}: the code has 483 bytes, twice", len(codes[0]) == 483 and codes == codes[:1] * 2)
    copy.write(f"{CONTRACT}/contract.wasm", codes[0])
    check = Call("near_module", ["check", f"{CONFIG}/generated.json", f"{CONTRACT}/contract.wasm"])
    put = ["call", f"{CONFIG}/generated.json", f"{CONTRACT}/contract.wasm", "put", "hello", "2000"]
    report, judged, called = yield [line_of(copy, CONTRACT, "near_serial"), check, Call("near_module", put)]
    judge.says(f"{CONTRACT}: the line prints the file report", report == copy.data(f"{CONTRACT}/report"))
    told = "".join(blocks(text, "")).splitlines()
    judge.says(f"{CONTRACT}: the {len(told)} lines of the page are the report's", are_lines(told, report))
    judge.says(f"{CONTRACT}: near_module check says ok", judged == b"ok\n")
    lines = [span for span in spans(text) if span.startswith(("value ", "log ", "store "))]
    judge.says(f"{CONTRACT}: near_module call says {', '.join(lines)}", called.decode().splitlines() == lines != [])
    yield from in_one_step(copy, judge, CONTRACT, f"{CONFIG}/generated.json", ["replay"], report)


def other_blocks(copy, judge):
    """What the page of the contract says of other blocks: less gas, and a method that isn't there."""
    told = [span for span in spans(copy.page(f"{CONTRACT}/README.md")) if span.startswith("failure 0 ")]
    text = copy.page(f"{CONTRACT}/blocks.json")
    changes = [('"gas": 10000', '"gas": 5000'), ('"ask"', '"asl"')]
    if len(told) != len(changes) or any(text.count(old) != 1 for old, _ in changes):
        sys.exit(f"{CONTRACT} has other changes")
    for number, change in enumerate(changes):
        copy.write(f"{CONTRACT}/other{number}.json", text.replace(*change).encode())
    names = [f"{CONTRACT}/other{number}" for number in range(len(changes))]
    for name, data in zip(names, (yield [Call("near_files", ["blocks", f"{name}.json"]) for name in names])):
        copy.write(name, data)
    words = ["run", f"{CONFIG}/generated.json", f"{CONTRACT}/genesis"]
    reports = yield [Call("near_serial", [*words, name]) for name in names]
    for (_, new), failure, report in zip(changes, told, reports):
        block = report.decode().split("\nchunk 2 0 ")[-1].split("\nchunk ")[0]
        judge.says(f"{CONTRACT}: with {new} block 2 has {failure}", block.count(f" {failure}\n") == 1)


def library(copy, judge):
    if copy.way == "built":
        return
    printed, = yield [Shell(blocks(copy.page("examples/library/README.md"), "sh")[0])]
    judge.says("examples/library: its lines print its totals", printed == copy.data("examples/library/stdout"))


PAGES = {"readme": [readme], "one_transfer": [one_transfer], "four_shards": [four_shards], "reshard": [reshard],
         "config": [config], "contract": [contract, other_blocks], "library": [library]}


def main():
    parser = argparse.ArgumentParser()
    way = parser.add_mutually_exclusive_group()
    way.add_argument("--built", dest="way", action="store_const", const="built", default="lines")
    way.add_argument("--quick", dest="way", action="store_const", const="quick")
    parser.add_argument("--only", choices=PAGES)
    arguments = parser.parse_args()
    missing = [name for name in PROGRAMS if not os.path.exists(os.path.join(TOP, "crates", name, "out", name))]
    if arguments.way == "built" and missing:
        sys.exit(f"no {missing[0]}: build the programs first (rt ci)")
    judge = Judge()
    with tempfile.TemporaryDirectory() as folder:
        copy = Copy(folder, arguments.way)
        chosen = [page for name, pages in PAGES.items() if arguments.only in (None, name) for page in pages]
        follow(copy, [page(copy, judge) for page in chosen])
    print(f"{judge.tried} tried, {judge.wrong} wrong")
    sys.exit(1 if judge.wrong else 0)


if __name__ == "__main__":
    main()
