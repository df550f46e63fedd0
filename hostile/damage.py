#!/usr/bin/env python3
"""Damages files of each kind in many ways, and runs the programs on them.

usage: hostile/damage.py [--programs FOLDER] [--only KIND] [--files N] [--seed N] [--fronts 0] [--jobs N]
                         [--limit SECONDS] [--minutes M] [--state FILE]
       hostile/damage.py --show KIND NUMBER FILE [--seed N]

Build the programs first. Of each kind (genesis, blocks, contract, configuration, schedule, module, genesis text,
blocks text, report, words, proof, part, gathered) N files (8,000) are made from a few good ones, which of the last
three near_serial makes: bits flipped, bytes set, counts turned into 2^32 - 1 or nearly kept, pieces cut out, doubled,
moved and added, the end cut off, and in texts numbers out of range, quotes, and brackets in one another. A contract is
damaged code in a genesis that is otherwise whole; words are what stands behind a program's name, and each program is
given them. A file is made by its kind, its number and the seed (1), and --show writes it again. The first 8,000 of each
kind come first, and of more then some of each kind in turn. Before them each good file but words is cut at each of its
bytes, and once has a zero byte more. A run on a file is a copy (fork) of the program, which was loaded once and stands
before its first instruction (faults.c); on words it is loaded each time.

What is right: the program ends by itself, with a status that it has for this kind. Where the status is above 0 there
is nothing on standard output and one line on standard error (of near_module one line on standard output; of near_files,
where words are no command, its help), and `near_files explain` has a sentence for it behind the program's name: of each
form of such lines the first fifty are tried. It takes at most 1 second of processor time and 100 microseconds for each
byte of the file, and holds at most 64 MiB and 64 times the file's length. And

  genesis, blocks, contract,    near_serial and near_replay end alike, with the same texts, and near_audit refuses what
  configuration                 they refuse, with the same line; else its archive has the chunks' lines of their report
  a file that is cut            genesis and blocks are refused with kind 1, and no part or gathered chunk is read, nor a
                                proof, but where whole lines of its path are gone: that is one that leads to no root,
                                and `verify` says invalid
  genesis, blocks               what `near_files show` (each other time with --compact) makes of one that it reads is
                                made into the same bytes
  genesis text, blocks text     what `near_files` makes of it near_serial doesn't refuse as such a file; `near_files
                                replay` writes what `show report` makes of the report of near_serial, and refuses what
                                `near_files` or near_serial refuse, in the words of `near_files` and the file's name
  schedule                      `near_files check` likewise
  module                        `run` answers as `check` does where that refuses; of a valid one that never runs `check`
                                has a line on standard error, the one that `run` then writes where there is the method;
                                `trap` writes the line of `run`, and another one behind a trap alone; `list` and `text`
                                refuse what `check` can't decode, with the same line, and nothing else; `call` fails
                                where `check` refuses; `hex` writes all bytes
  words                         near_serial and near_replay end alike behind `gen`
  proof                         `verify` says valid of no other bytes than those that `prove` writes, and `near_files
                                show` refuses what `verify` can't read
  part                          what `checkpart` accepts has no entry that the state hasn't, what `joinparts` accepts as
                                the one part has all of them, and `near_files show` refuses what these can't read
  gathered                      `recheck` of a whole one writes the lines that `run` writes of its chunk, and
                                `near_files show` refuses what `recheck` can't read

The exit status is 0 where every run was right.
"""
import collections
import multiprocessing
import os
import random
import sys
import tempfile
import time

import chains
import programs as shared
import tries
import wasm

MIB = 1 << 20
SECONDS, SECONDS_A_BYTE = 1, 100e-6
MEMORY, MEMORY_A_BYTE = 64 * MIB, 64
FIRST, MORE, STEP, EXPLAINED = 8000, 4000, 50, 50
USED = b"The words are no command. These are:\n"
WORDS = [b"-1", b"1e400", b"0.5", b"18446744073709551616", b"340282366920938463463374607431768211456", b'"', b"\\",
         b"\\ud800", b"\\u0000", b"\0", b"\xff", b"null", b"true", b"{", b"}", b"[", b"]", b",", b":", b"[" * 100,
         b"[" * 127, b"[" * 128, b"]" * 127, b'{"a":' * 127, b"[" * 3000, b" " * 50, b"\n", b"\r\n", b"\t", b"00",
         b"rest\n", b"take 1 0 1\n", b"seal 1\n", b"reshard\n"]
COMMANDS = [b"run config genesis blocks", b"check config genesis blocks schedule", b"gen 7 2 1",
            b"replay config genesis blocks", b"check config module", b"run config module run 1000",
            b"genesis config genesis.json", b"blocks blocks.json", b"show genesis config genesis",
            b"show blocks blocks", b"show report report", b"explain 3 4 0 182 100", b"roots config genesis blocks",
            b"prove config genesis blocks 2 0 outcome 0", b"part config genesis blocks 2 0 3 1",
            b"verify " + b"0a" * 32 + b" blocks", b"checkpart " + b"0a" * 32 + b" blocks",
            b"joinparts " + b"0a" * 32 + b" 1 blocks", b"show part blocks", b"show proof report", b"help", b"version",
            b"gather config genesis blocks 2 0", b"gather config genesis blocks", b"recheck config blocks",
            b"show gathered blocks", b"hex module", b"list module", b"explain near_audit 4 2 1",
            b"explain no 5 0 0", b"check config genesis changing steps", b"text module",
            b"trap config module run 1000", b"call config module run hex: 1000 5", b"call free module run 0a 1000",
            b"replay config genesis.json blocks.json", b"check config genesis.json blocks.json schedule",
            b"show --compact blocks blocks", b"help show", b"help near_replay", b"explain near_module at 3 120",
            b"explain run " + b"01" * 32 + b" failure 0 16 14 83 8300", b"explain tx " + b"01" * 32 + b" refused 9 1 2"]
VOCABULARY = [b"", b"-", b"--", b"-h", b"--help", b"-V", b"run", b"gen", b"show", b"free", b"config", b"genesis",
              b"blocks", b"0", b"1", b"01", b"+1", b"-1", b"2", b"17", b"257", b"18446744073709551615",
              b"18446744073709551616", b"\xff", b"\xc3\xa9", b"x" * 5000, b"=", b"gen=1", b"none/here", b".", b"a b",
              b"trap", b"call", b"text", b"--compact", b"hex:", b"hex:0", b"340282366920938463463374607431768211456",
              b"explain", b"replay", b"check"]
HUGE = [b"\xff" * 4, b"\xff" * 8, b"\xff" * 16, b"\xff\xff\xff\x7f", b"\0\0\0\x80", b"\xff\xff\xff\xff\x0f"]
TEXTS = ("configuration", "schedule", "genesis text", "blocks text", "report", "proof")


def seeds(found):
    """The good files of each kind; proofs and parts are made by a program."""
    read = chains.bytes_of
    made = shared.made_by(found["near_serial"]) if "near_serial" in found else None
    code = chains.example_code()
    return {
        "genesis": [read("contract", "genesis"), chains.people(code)],
        "blocks": [read("contract", "blocks"), chains.busy_blocks(6), chains.every_action(), chains.resharded()],
        "contract": [code],
        "configuration": [read("config", "generated.json"), read("config", "receipt_fees.json"), chains.busy_config()],
        "schedule": [chains.SCHEDULE, chains.STEPS, b"rest\n",
                     b"open 0\nseal 0\npublish 0\nopen 1\nseal 1\npublish 1\n" * 3],
        "module": [code, wasm.lively(), wasm.nested(20, wasm.IF)],
        "genesis text": [read(name, "genesis.json") for name in ("contract", "one_transfer")],
        "blocks text": [*(read(name, "blocks.json") for name in ("contract", "one_transfer", "reshard")),
                        chains.spoken_blocks()],
        "report": [read("contract", "report")],
        "words": COMMANDS,
        **({"proof": made.proofs, "part": [made.whole, *made.parts],
            "gathered": [data for _, data, _ in made.gathered]} if made else {}),
    }


def place_in(data, chance):
    return chance.randrange(len(data) + 1)


def piece_of(data, chance):
    at = place_in(data, chance)
    return at, min(len(data), at + chance.choice((1, 2, 4, 8, 32, 200)))


def put(data, at, new):
    data[at : at + len(new)] = new


def flip(data, chance):
    for _ in range(chance.randint(1, 4)):
        if data:
            data[chance.randrange(len(data))] ^= 1 << chance.randrange(8)


def set_byte(data, chance):
    if data:
        data[chance.randrange(len(data))] = chance.choice((0, 1, 2, 127, 128, 255, chance.randrange(256)))


def huge(data, chance):
    put(data, place_in(data, chance), chance.choice(HUGE))


def nudge(data, chance):
    at = place_in(data, chance)
    number = int.from_bytes(data[at : at + 4], "little") + chance.choice((-2, -1, 1, 2, 256))
    put(data, at, (number % 2**32).to_bytes(4, "little"))


def cut(data, chance):
    del data[place_in(data, chance) :]


def drop(data, chance):
    at, end = piece_of(data, chance)
    del data[at:end]


def double(data, chance):
    at, end = piece_of(data, chance) if chance.randrange(8) else (0, len(data))
    data[at:at] = data[at:end] * chance.choice((1, 1, 1, 2, 20))


def move(data, chance):
    at, end = piece_of(data, chance)
    put(data, place_in(data, chance), data[at:end])


def add(data, chance):
    at = place_in(data, chance) if chance.randrange(4) else len(data)
    data[at:at] = chance.randbytes(chance.choice((1, 2, 4, 16)))


def word(data, chance):
    at = place_in(data, chance)
    data[at : at + chance.choice((0, 0, 1, 3))] = chance.choice(WORDS)


def digit(data, chance):
    places = [at for at, byte in enumerate(data) if 48 <= byte < 58]
    if places:
        data[chance.choice(places)] = chance.choice(b"0123456789")


def words(chance, good):
    """The words of a command, some of them changed."""
    data = chance.choice(good).split()
    for _ in range(chance.randint(1, 3)):
        at = chance.randrange(len(data) + 1)
        end = at + chance.choice((0, 1))
        other = [chance.choice(VOCABULARY)]
        data[at:end] = chance.choice(([], other, other, data[at : at + 1] * 2))
    if data and not chance.randrange(3):
        at = chance.randrange(len(data))
        changed = bytearray(data[at])
        flip(changed, chance)
        data[at] = bytes(changed).replace(b"\0", b"")
    return b"\0".join(data)


WAYS = [flip, set_byte, huge, nudge, cut, drop, double, move, add]


def damaged(kind, number, seed, good):
    chance = random.Random(f"{seed} {kind} {number}")
    if kind == "words":
        return words(chance, good)
    data = bytearray(chance.choice(good))
    ways = [flip, set_byte, cut, drop, double, move, word, word, digit, digit, digit] if kind in TEXTS else WAYS
    for _ in range(chance.choice((1, 1, 2, 3))):
        chance.choice(ways)(data, chance)
    return bytes(data)


class Judge:
    """Runs the programs on damaged files, and says what was wrong."""

    def __init__(self, found, folder, limit, library):
        self.found, self.runner, self.is_words = found, tries.Copies(limit, library), False
        self.own = tempfile.mkdtemp(dir=folder)
        names = ("file", "made", "again", "lines")
        self.file, self.made, self.again, self.report = (os.path.join(self.own, name) for name in names)
        os.chdir(self.own)
        self.config = shared.write("config", chains.busy_config())
        self.genesis = shared.write("genesis", chains.people(chains.example_code()))
        self.blocks = shared.write("blocks", chains.every_action())
        self.changing = shared.write("changing", chains.resharded())
        shared.write("schedule", chains.SCHEDULE)
        shared.write("steps", chains.STEPS)
        shared.write("module", wasm.lively())
        shared.write("report", chains.bytes_of("contract", "report"))
        for kind in ("genesis", "blocks"):
            shared.write(f"{kind}.json", chains.bytes_of("contract", f"{kind}.json"))
        self.explained, self.forms, self.number = {}, collections.Counter(), 0
        self.make_texts()
        self.made_files = shared.made_by(found["near_serial"]) if "near_serial" in found else None
        os.symlink(self.file, self.file + "0")

    def make_texts(self):
        """The files of the texts that stand beside a damaged one, and the texts of the files that do."""
        if "near_files" not in self.found:
            return
        made = lambda *words: self.runner.run([self.found["near_files"], *words]).out
        shared.write("text-genesis", made("genesis", self.config, "genesis.json"))
        shared.write("text-blocks", made("blocks", "blocks.json"))
        shared.write("people.json", made("show", "genesis", self.config, self.genesis))
        shared.write("changing.json", made("show", "blocks", self.changing))

    def begin(self, number, size):
        self.number, self.wrong, self.size, self.runs = number, [], size, 0

    def run(self, program, *words, statuses=(0,)):
        """A run within its bounds, or None where the program isn't there."""
        if program not in self.found:
            return None
        run = self.runner.run if self.is_words else self.runner.run_copy
        ran = run([self.found[program], *words])
        self.runs += 1
        name = f"{program} {words[0] if words else ''}"
        if ran.status not in statuses:
            self.wrong.append(f"{name}: status {ran.status}, {ran.err[-200:]!r}")
        if ran.processor > SECONDS + SECONDS_A_BYTE * self.size:
            self.wrong.append(f"{name}: {ran.processor:.1f} s for {self.size} bytes")
        if ran.memory * 1024 > MEMORY + MEMORY_A_BYTE * self.size:
            self.wrong.append(f"{name}: {ran.memory / 1024:.0f} MiB for {self.size} bytes")
        if not self.is_told(ran, program, words):
            self.wrong.append(f"{name}: status {ran.status}, {len(ran.out)} bytes written, {ran.err[-200:]!r}")
        return ran

    def is_told(self, ran, program, words):
        """Whether a refusal has no text and one line, that of its status, which can be explained. Where `near_files`
        can't read a file, the line names it as the words do, byte for byte, with any line feeds that its name has.
        Where it refuses one, the line has visible characters of ASCII and spaces alone, whatever stands in the file."""
        if program == "near_module" and ran.status in (0, shared.FAULTY):
            return ran.err in (b"", b"make 21\n") and ran.out.endswith(b"\n")
        if ran.status == 0:
            return not ran.err
        if program == "near_files" and ran.status == shared.USAGE:
            return not ran.out and ran.err.startswith(USED)
        if program == "near_files" and ran.status == shared.UNREADABLE:
            return not ran.out and ran.err in [b"the file %s can't be read\n" % os.fsencode(word) for word in words]
        if ran.out or ran.err.count(b"\n") != 1 or not ran.err.endswith(b"\n"):
            return False
        if program == "near_files" and ran.status == shared.FAULTY:
            return self.is_words or all(32 <= byte < 127 for byte in ran.err[:-1])
        if program == "near_files" and ran.status > shared.FAULTY:
            return ran.err == b"There is no sentence for these words.\n"
        return ran.err.split()[0] == b"%d" % ran.status and self.is_explained(program, ran.err)

    def is_explained(self, program, line):
        """Whether `near_files explain` has a sentence for the line, behind the name of the program that wrote it."""
        words = [program, *line.decode().split()]
        form, text = (program, words[1], *(words[2:3] if len(words) > 3 else [])), " ".join(words)
        if text not in self.explained and "near_files" in self.found and self.forms[form] < EXPLAINED:
            self.forms[form] += 1
            ran = self.runner.run([self.found["near_files"], "explain", *words])
            self.runs += 1
            self.explained[text] = ran.out if ran.status == 0 else b""
        return len(self.explained.get(text, b"not tried, since many of this form were")) > 20

    def both(self, config, genesis, blocks, statuses):
        """What the serial program answers, and the others must."""
        one = self.run("near_serial", "run", config, genesis, blocks, statuses=statuses)
        other = self.run("near_replay", "replay", config, genesis, blocks, statuses=statuses)
        if one and other and one[:3] != other[:3]:
            ends = f"{one.status}, {one.err!r}; near_replay: {other.status}, {other.err!r}"
            self.wrong.append(f"near_serial: {ends}")
        archive = self.run("near_audit", "gather", config, genesis, blocks, statuses=statuses)
        if one and archive and (one.status, one.err) != (archive.status, archive.err):
            self.wrong.append(f"near_serial: {one.err!r}; near_audit: {archive.status}, {archive.err!r}")
        elif one and archive and one.status == 0 and lines_in(archive.out) != chunks_of(one.out):
            self.wrong.append("near_audit: the archive has other lines than the report")
        return one or other or archive

    def shown(self, data, words, back):
        """The file shown as a text, which is made into the same bytes again."""
        compact = ["--compact"] if self.number % 2 else []
        ran = self.run("near_files", "show", *compact, *words, self.file, statuses=(0, 20))
        if ran and ran.status == 0:
            if compact and ran.out.count(b"\n") != 1:
                self.wrong.append("near_files show --compact: more lines than one")
            made = self.run("near_files", *back, shared.write(self.again, ran.out))
            if made.out != data:
                self.wrong.append("near_files: what was shown is made into other bytes")
        return ran

    def judge(self, kind, data):
        """The status of the first run on the file, of this kind."""
        shared.write(self.file, data)
        self.is_words = kind == "words"
        return getattr(self, f"judge_{kind.replace(' ', '_')}")(data)

    def judge_genesis(self, data):
        shown = self.shown(data, ["genesis", self.config], ["genesis", self.config])
        return self.both(self.config, self.file, self.blocks, (0, 3, 4)) or shown

    def judge_blocks(self, data):
        shown = self.shown(data, ["blocks"], ["blocks"])
        return self.both(self.config, self.genesis, self.file, (0, 4)) or shown

    def judge_contract(self, data):
        shared.write(self.made, chains.people(data))
        return self.both(self.config, self.made, self.blocks, (0,))

    def judge_configuration(self, _):
        return self.both(self.file, self.genesis, self.blocks, (0, 2, 3))

    def judge_schedule(self, _):
        ran = self.run("near_serial", "check", self.config, self.genesis, self.changing, self.file, statuses=(0, 8))
        words = ["check", self.config, "people.json", "changing.json", self.file]
        self.in_one_step(words, None, ran)
        return ran

    def in_one_step(self, words, refused, ran):
        """`near_files replay` or `check`, beside how `near_files` refused its text, or else how near_serial ran."""
        whole = self.run("near_files", *words, statuses=(0, 20))
        if not whole or not (refused or ran):
            return
        if refused:
            right = (shared.FAULTY, b"", self.file.encode() + b": " + refused.err)
        elif ran.status == 0:
            shown = self.run("near_files", "show", "report", shared.write(self.report, ran.out))
            right = shown[:3]
        else:
            sentence = self.explained.get(" ".join(["near_serial", *ran.err.decode().split()]), whole.err)
            right = (shared.FAULTY, b"", sentence)
        if whole[:3] != right:
            self.wrong.append(f"near_files {words[0]}: status {whole.status}, {len(whole.out)} bytes, {whole.err!r}; "
                              f"in single steps {right[0]}, {len(right[1])} bytes, {right[2]!r}")

    def judge_module(self, data):
        ran = self.run("near_module", "check", self.config, self.file, statuses=(0, 20))
        lively = self.run("near_module", "run", self.config, self.file, "run", "100000", statuses=(0, 20))
        notes = {b"make 21\n": (b"make 21\n",), b"method\n": (b"", b"make 21\n")}.get(lively and lively.out, (b"",))
        if ran and ((ran.out.count(b"\n"), lively.out.count(b"\n"), lively.err) != (1, 1, b"") or ran.err not in notes):
            self.wrong.append(f"near_module writes {ran.out!r}, {ran.err!r}; {lively.out!r}, {lively.err!r}")
        if ran and ran.status == 20 and ran[:3] != lively[:3]:
            self.wrong.append(f"near_module: check says {ran.out!r}, run {lively.out!r}")
        if ran and not all(self.is_explained("near_module", line) for line in (ran.out, lively.out)):
            self.wrong.append(f"near_module: no sentence for {ran.out!r}, {lively.out!r}")
        if ran:
            self.judge_listing(ran)
            self.judge_running(ran, lively)
        written = self.run("near_files", "hex", self.file)
        if written and written.out != b'"%s"\n' % data.hex().encode():
            self.wrong.append("near_files hex: other digits")
        return ran

    def judge_listing(self, checked):
        for verb in ("list", "text"):
            shown = self.run("near_module", verb, self.file, statuses=(0, 20))
            if shown[:3] != checked[:3] if checked.out.startswith(b"decode ") else shown.status or shown.err:
                self.wrong.append(f"near_module: check says {checked.out!r}, {verb} {shown.status}, {shown.err!r}")

    def judge_running(self, checked, lively):
        trapped = self.run("near_module", "trap", self.config, self.file, "run", "100000", statuses=(0, 20))
        line, behind = trapped.out[: len(lively.out)], trapped.out[len(lively.out) :]
        at = behind.startswith(b"at ") and behind.count(b"\n") == 1 and line.startswith(b"trap ")
        if (trapped.status, line, trapped.err) != lively[:3] or behind and not at:
            self.wrong.append(f"near_module: run says {lively.out!r}, trap {trapped.out!r}, {trapped.err!r}")
        called = self.run("near_module", "call", self.config, self.file, "run", "hex:", "100000", statuses=(0, 20))
        if checked.status == 20 and self.size < 90_000 and not called.out.startswith(b"failure 13 "):
            self.wrong.append(f"near_module: check says {checked.out!r}, call {called.out[:200]!r}")

    def judge_genesis_text(self, _):
        ran, one = self.run("near_files", "genesis", self.config, self.file, statuses=(0, 20)), None
        if ran and ran.status == 0:
            made = shared.write(self.made, ran.out)
            one = self.run("near_serial", "run", self.config, made, "text-blocks", statuses=(0, 4))
        words = ["replay", self.config, self.file, "blocks.json"]
        self.in_one_step(words, ran if ran and ran.status else None, one)
        return ran

    def judge_blocks_text(self, _):
        ran, one = self.run("near_files", "blocks", self.file, statuses=(0, 20)), None
        if ran and ran.status == 0:
            made = shared.write(self.made, ran.out)
            one = self.run("near_serial", "run", self.config, "text-genesis", made, statuses=(0, 4))
        words = ["replay", self.config, "genesis.json", self.file]
        self.in_one_step(words, ran if ran and ran.status else None, one)
        if ran and ran.status == 0:
            shared.write(self.file, ran.out)
            self.shown(ran.out, ["blocks"], ["blocks"])
        return ran

    def judge_words(self, data):
        these = data.split(b"\0") if data else []
        runs = [self.run(name, *these, statuses=(*range(6), 8, *range(10, 14), 20, 21)) for name in shared.NAMES]
        if these[:1] == [b"gen"] and runs[0] and runs[1] and runs[0][:3] != runs[1][:3]:
            self.wrong.append(f"near_replay: {runs[1][:3]}; near_serial: {runs[0][:3]}")
        return next((ran for ran in runs if ran), None)

    def judge_proof(self, data):
        made = self.made_files
        ran = self.run("near_serial", "verify", made.items, self.file, statuses=(0, 10))
        right = b"valid\n" if data in made.proofs else b"invalid\n"
        if ran.status == 0 and ran.out != right:
            self.wrong.append(f"near_serial verify: {ran.out!r}")
        self.is_shown_alike("proof", ran.status == 0)
        return ran

    def is_shown_alike(self, kind, read):
        shown = self.run("near_files", "show", kind, self.file, statuses=(0, 20))
        if shown and (shown.status == 0) != read:
            self.wrong.append(f"near_files show {kind}: status {shown.status}, but near_serial reads it: {read}")

    def judge_part(self, data):
        made = self.made_files
        ran = self.run("near_serial", "checkpart", made.state, self.file, statuses=(0, 13))
        if ran.status == 0 and not entries_of(data) <= entries_of(made.whole):
            self.wrong.append("near_serial checkpart accepts entries that the state hasn't")
        joined = self.run("near_serial", "joinparts", made.state, "1", self.file, statuses=(0, 13))
        if joined.status == 0 and entries_of(data) != entries_of(made.whole):
            self.wrong.append("near_serial joinparts accepts other entries than the state's")
        self.is_shown_alike("part", not ran.err.startswith(b"13 1 "))
        return ran

    def judge_gathered(self, data):
        ran = self.run("near_serial", "recheck", self.config, self.file, statuses=(0, 12))
        self.is_shown_alike("gathered", not ran.err.startswith((b"12 1 ", b"12 5 ")))
        for config, whole, lines in self.made_files.gathered:
            if data == whole and self.run("near_serial", "recheck", config, self.file).out != lines:
                self.wrong.append("near_serial recheck: other lines than those of run")
        return ran

    def judge_report(self, _):
        return self.run("near_files", "show", "report", self.file, statuses=(0, 20))


def entries_of(part):
    """The entries of a part's file, each a key and a value."""
    def field(at):
        end = at + 4 + int.from_bytes(part[at : at + 4], "little")
        if end > len(part):
            raise ValueError("a part that was accepted ends inside a field")
        return part[at + 4 : end], end

    entries, at = set(), 48
    for _ in range(int.from_bytes(part[44:48], "little")):
        key, at = field(at)
        value, at = field(at)
        entries.add((key, value))
    return entries


def chunks_of(report):
    """The lines of the chunks of a report."""
    return report[: (b"\n" + report).rindex(b"\ntotal supply ")]


def lines_in(archive):
    """What the files of an archive hold whose names end with `.lines`."""
    at, lines = 0, []
    while (name := archive[at : at + 100].rstrip(b"\0")):
        size = int(archive[at + 124 : at + 135], 8)
        if name.endswith(b".lines"):
            lines.append(archive[at + 512 : at + 512 + size])
        at += 512 + (size + 511) // 512 * 512
    return b"".join(lines)


def ready(found, folder, limit, library, until):
    global judge, good, late
    judge, good, late = Judge(found, folder, limit, library), seeds(found), until


# What a file that is cut is answered with, of the kinds that have no front of a file as another file.
CUT = {"genesis": b"3 1 ", "blocks": b"4 1 ", "proof": b"10 1 ", "part": b"13 1 ", "gathered": b"12 1 "}


def is_cut_told(kind, data, ran):
    """Whether a file that is cut is answered as such. A proof says how many items there are and not how many hashes:
    one that ends with any line from its second on, the item, is whole, and with fewer hashes leads to no root."""
    if kind == "proof" and data.count(b"\n") >= 2 and data.endswith(b"\n"):
        return ran[:3] == (shared.DONE, b"invalid\n", b"")
    return ran.err.startswith(CUT.get(kind, b""))


def file_of(kind, source, number):
    """A file of a kind: that of a number under a seed, or a good one up to so many bytes, at its end with one more."""
    if isinstance(source, int):
        return damaged(kind, number, source, good[kind])
    whole = good[kind][source[0]]
    return whole[:number] if number < len(whole) else whole + b"\0"


def tried(task):
    """The files of some numbers: how the first run on each ended, what was wrong, and how many runs there were."""
    key, (kind, source, first, last) = task
    if tries.is_late(late):
        return key, None
    ends, wrong, runs = collections.Counter(), [], 0
    for number in range(first, last + 1):
        data = file_of(kind, source, number)
        judge.begin(number, len(data))
        try:
            ran = judge.judge(kind, data)
        except (ValueError, IndexError, AttributeError) as error:
            wrong.append((number, f"what a program wrote isn't understood: {error!r}"))
            continue
        runs += judge.runs
        if ran is None:
            continue
        ends[str(ran.status)] += 1
        if not isinstance(source, int) and not is_cut_told(kind, data, ran):
            judge.wrong.append(f"a file that is cut: status {ran.status}, {ran.out[-200:]!r}, {ran.err[-200:]!r}")
        wrong += [(number, what) for what in judge.wrong]
    return key, {"ends": ends, "wrong": wrong, "runs": runs}


def fronts_of(kinds, good):
    """Each good file but words, cut at each of its bytes, as pairs of a key and a task."""
    for kind in kinds:
        for place, whole in enumerate(good[kind] if kind != "words" else []):
            for begin in range(0, len(whole) + 1, STEP):
                last = min(begin + STEP, len(whole) + 1) - 1
                yield f"{kind}, fronts of {place}: {begin} to {last}", (kind, (place,), begin, last)


def tasks_of(kinds, good, arguments):
    """The fronts, and then some damaged files of each kind in turn, as pairs of a key and a task."""
    first = 1
    if arguments.fronts:
        yield from fronts_of(kinds, good)
    while first <= arguments.files:
        end = min(arguments.files + 1, first + (FIRST if first == 1 else MORE))
        for kind in kinds:
            for begin in range(first, end, STEP):
                last = min(begin + STEP, end) - 1
                yield f"{kind}, seed {arguments.seed}: {begin} to {last}", (kind, arguments.seed, begin, last)
        first = end


class Sums:
    """What was found of a kind."""

    def __init__(self):
        self.ends, self.wrong, self.runs = collections.Counter(), 0, 0

    def add(self, source, value):
        for number, what in value["wrong"][: max(0, 10 - self.wrong)]:
            print(f"  WRONG {source}, {number}: {what}", flush=True)
        self.ends.update(value["ends"])
        self.wrong += len({number for number, _ in value["wrong"]})
        self.runs += value["runs"]

    def tell(self, kind):
        counts = ", ".join(f"status {end} {count}" for end, count in sorted(self.ends.items()))
        print(f"{kind}: {sum(self.ends.values())} files, {self.runs} runs, {counts}; {self.wrong} wrong", flush=True)


def main():
    arguments = shared.arguments_of(__doc__, ("--files", {"type": int, "default": FIRST}),
                                    ("--seed", {"type": int, "default": 1}), ("--show", {"nargs": 3}),
                                    ("--fronts", {"type": int, "default": 1}))
    found, begin = shared.programs_in(arguments.programs), time.monotonic()
    good = seeds(found)
    kinds = [kind for kind in good if not arguments.only or arguments.only in kind]
    if arguments.show:
        kind, number, path = arguments.show
        shared.write(path, damaged(kind, int(number), arguments.seed, good[kind]))
        return
    state, sums = tries.State(arguments.state, found), {kind: Sums() for kind in kinds}
    quick = "/dev/shm" if os.access("/dev/shm", os.W_OK) else None
    with tempfile.TemporaryDirectory(dir=quick) as folder, tempfile.TemporaryDirectory() as built:
        given = (found, folder, arguments.limit, shared.faults_in(built), tries.until_of(arguments))
        with multiprocessing.Pool(arguments.jobs, ready, given) as pool:
            for key, value in tries.carried_out(pool, tried, tasks_of(kinds, good, arguments), state):
                sums[key.split(", ")[0]].add(key.split(":")[0], value)
    for kind in kinds:
        sums[kind].tell(kind)
    files, runs, wrong = (sum(count) for count in zip(*((sum(one.ends.values()), one.runs, one.wrong)
                                                        for one in sums.values())))
    tries.close(f"damage: {files} files of {len(kinds)} kinds in {runs} runs", wrong, begin)


if __name__ == "__main__":
    main()
