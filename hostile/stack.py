#!/usr/bin/env python3
"""Runs the programs on the deepest inputs under a small stack.

usage: hostile/stack.py [--programs FOLDER] [--only WORD] [--stack KIB] [--keys N] [--least] [--jobs N]
                        [--limit SECONDS] [--minutes M] [--state FILE]

Build the programs first. Each command runs as the shell's limits are, and then with a stack of 256 KiB (--stack), on
texts that nest 127 deep (and 128, which is refused), modules with 256 blocks in one another (and 257), calls and
values to the greatest bounds that a configuration can have, lists of 50,000, and a genesis whose keys nest in one
another (--keys, 11,200: some 63 of the 64 MB that a file may have). What is right is the same end with the same
texts, and the status that is known. With --least the last column is the least of some stacks, in KiB, from which on all
serve. The exit status is 0 where every run was right.
"""
import json
import multiprocessing
import resource
import tempfile
import time

import chains
import programs as shared
import tries
import wasm
from wasm import const32, const64, unsigned, vector

STACKS = (16, 32, 64, 128, 256, 512, 1024, 2048, 4096, 8192)
DEEP = {"max_call_depth": 10_000, "max_stack_values": 1_000_000, "max_prepaid_gas": 10**9, "chunk_gas_limit": 10**12}


def nested_text(depth, opening=b"[", closing=b"]", before=b'"deeper":'):
    """A member whose value nests so deep, within an object that is one level by itself."""
    return before + opening * (depth - 1) + b"1" + closing * (depth - 1)


def with_member(text, member):
    """A JSON text whose outer object has one member more."""
    return text.rstrip()[:-1].rstrip() + b"," + member + b"}"


def texts(at):
    """Commands on JSON texts that nest, as (name, program, words, status)."""
    for depth, status in ((127, 0), (128, 20), (5000, 20), (1_000_000, 20)):
        for opening, closing in ((b"[", b"]"), (b'{"a":', b"}")):
            if len(opening) > 1 and depth > 5000:
                continue
            member, what = nested_text(depth, opening, closing), f"{depth} levels of {opening[:1].decode()}"
            for kind in ("genesis", "blocks"):
                text = with_member(chains.bytes_of("one_transfer", f"{kind}.json"), member)
                text = at(f"{kind}-{depth}-{len(opening)}", text)
                words = ["genesis", "free", text] if kind == "genesis" else ["blocks", text]
                yield f"{kind} text, {what}", "near_files", words, status
            config = at(f"config-{depth}-{len(opening)}", with_member(chains.busy_config(), member))
            module = at("module", wasm.lively())
            yield f"configuration, {what}", "near_module", ["check", config, module], min(status, 2)
            chain = [config, *(chains.example("one_transfer", part) for part in ("genesis", "blocks"))]
            for program, verb in (("near_serial", "run"), ("near_replay", "replay"), ("near_audit", "gather")):
                yield f"configuration, {what}", program, [verb, *chain], min(status, 2)
            yield from runs_of_texts(at, depth, opening, closing, status)
    member = b'"wide":[' + b"[]," * 300_000 + b"1]"
    wide = at("wide", with_member(chains.bytes_of("one_transfer", "genesis.json"), member))
    yield "genesis text, 300,000 lists", "near_files", ["genesis", "free", wide], 0
    long = at("long", b"log " + b"00" * 5_000_000 + b"\n")
    yield "report, a line of 10,000,004 bytes", "near_files", ["show", "report", long], 0


def runs_of_texts(at, depth, opening, closing, status):
    """Commands that run what such a text describes; of arguments that are given as a value, which stands in ten."""
    what, step = f"{depth} levels of {opening[:1].decode()}", len(opening)
    genesis = chains.example("one_transfer", "genesis.json")
    blocks = with_member(chains.bytes_of("one_transfer", "blocks.json"), nested_text(depth, opening, closing))
    words = ["free", genesis, at(f"run-{depth}-{step}", blocks)]
    yield f"blocks text, {what}", "near_files", ["replay", *words], status
    schedule = at(f"rest-{depth}-{step}", b"rest\n")
    yield f"blocks text, {what}", "near_files", ["check", *words, schedule], status
    value = opening * (depth - 10) + b"1" + closing * (depth - 10)
    call = b'{"FunctionCall":{"method_name":"go","args":{"json":' + value + b'},"gas":1,"deposit":"0"}}'
    key = chains.KEY[1:].hex().encode()
    sent = (b'{"signer_id":"alice","public_key":"ed25519:' + key + b'","nonce":1,"receiver_id":"bob","actions":[' + call
            + b"]}")
    text = b'{"blocks":[{"height":1,"timestamp":0,"chunks":[[' + sent + b"]]}]}"
    given = at(f"given-{depth}-{step}", text)
    yield f"arguments, {what}", "near_files", ["blocks", given], status
    yield f"arguments, {what}", "near_files", ["replay", "free", genesis, given], status


def modules():
    """Modules to the bounds of what a module may be, as (name, bytes, the status of check, the status of run)."""
    for depth, status in ((256, 0), (257, 20)):
        for what, opening in (("blocks", wasm.BLOCK), ("loops", wasm.LOOP), ("ifs", wasm.IF)):
            yield f"{depth} {what} in one another", wasm.nested(depth, opening), status, status
    yield "calls without end", wasm.recursing(), 0, 20
    yield "calls without end, 90 values each", wasm.recursing(90), 0, 20
    yield "50,000 operands", wasm.long_body(50_000), 0, 0
    labels = const32(3) + b"\x0e" + vector([unsigned(0)] * 49_999) + unsigned(0)
    yield "a branch with 50,000 labels", wasm.whole([wasm.NOTHING], [0], [wasm.body(labels)], [("run", 0)]), 0, 0
    chain = (const32(0) + wasm.IF + wasm.EMPTY + wasm.ELSE) * 255 + wasm.END * 255
    yield "255 ifs, each in the other's else", wasm.whole([wasm.NOTHING], [0], [wasm.body(chain)], [("run", 0)]), 0, 0
    many = 50_000
    yield "50,000 functions", wasm.whole([wasm.NOTHING], [0] * many, [wasm.body(b"")] * many, [("run", 0)]), 0, 0
    wide = b"\x60" + vector([wasm.LONG] * 50_000) + vector([])
    yield "50,000 parameters", wasm.whole([wasm.NOTHING, wide], [0], [wasm.body(b"")], [("run", 0)]), 0, 0


def module_runs(at):
    config = at("deep", chains.busy_config(**DEEP))
    for place, (name, data, checked, ran) in enumerate(modules()):
        file = at(f"module-{place}", data)
        yield f"module, {name}", "near_module", ["check", config, file], checked
        yield f"module, {name}, run", "near_module", ["run", config, file, "run", "10000000"], ran
        yield f"module, {name}, trap", "near_module", ["trap", config, file, "run", "10000000"], ran
        yield f"module, {name}, call", "near_module", ["call", config, file, "run", "hex:", "10000000"], ran
        for verb in ("list", "text"):
            yield f"module, {name}, {verb}", "near_module", [verb, file], checked


def chain_runs(at):
    """Each of the modules as a contract, by both programs."""
    free = json.loads(chains.bytes_of("config", "free.json"))
    config = at("deep-free", json.dumps({**free, **DEEP}).encode())
    method = [chains.transaction(1, b"desk", [chains.call(b"run", b"", 10**8)]),
              chains.transaction(2, b"vault", [chains.call(b"run", b"", 10**8)])]
    blocks = at("deep-blocks", chains.blocks([[method, []], [[], []], [[], []], [[], []]]))
    for place, (name, data, _, _) in enumerate(modules()):
        genesis = at(f"genesis-{place}", chains.people(data))
        yield f"contract, {name}", "near_serial", ["run", config, genesis, blocks], 0
        yield f"contract, {name}", "near_replay", ["replay", config, genesis, blocks], 0
        yield f"contract, {name}", "near_audit", ["gather", config, genesis, blocks], 0


def key_runs(at, count, serial):
    """A genesis whose data's keys nest in one another, blocks that change it, also with other boundaries from the third
    on, a half of its state as a part, and its first chunk gathered."""
    data = [(b"k" * length, b"v") for length in range(1, count + 1)]
    genesis = at("nested", chains.genesis([b"mm"], {b"alice": (10**20, None, [(chains.KEY, chains.FOR_ALL)], data)}))
    moves = [chains.transaction(turn, b"zoe.alice", [b"\0", b"\3" + chains.u128(10**9)]) for turn in (1, 2)]
    rows = [[moves, []], [[], []], [[], []]]
    chain = ["free", genesis, at("nested-blocks", chains.blocks(rows))]
    changing = ["free", genesis, at("nested-changing", chains.blocks(rows, prices=[1] * 3, change=(3, [b"aa"])))]
    schedule = at("nested-schedule", b"open 0\nseal 0\nrest\n")
    at("nested-blocks-rest", b"rest\n")
    one, half = ["1", "0"], ["1", "0", "2", "1"]
    name = f"{count} keys in one another"
    yield name, "near_serial", ["check", *chain, schedule], 0
    for what, words in ((name, chain), (f"{name}, boundaries change", changing)):
        yield what, "near_serial", ["run", *words], 0
        yield what, "near_replay", ["replay", *words], 0
        yield what, "near_audit", ["gather", *words], 0
    yield name, "near_files", ["show", "genesis", "free", genesis], 0
    yield f"{name}, compact", "near_files", ["show", "--compact", "genesis", "free", genesis], 0
    yield name, "near_serial", ["part", *chain, *half], 0
    yield name, "near_serial", ["gather", *chain, *one], 0
    if serial:
        made = [shared.limited([serial, *words], {}).out for words in (
            ["run", *chain], ["part", *chain, *half], ["gather", *chain, *one])]
        part, gathered, root = at("nested-part", made[1]), at("nested-gathered", made[2]), made[0].split(b" ", 4)[3]
        yield name, "near_serial", ["checkpart", root.decode(), part], 0
        yield name, "near_serial", ["recheck", "free", gathered], 0
        yield name, "near_files", ["show", "part", part], 0
        yield name, "near_files", ["show", "gathered", gathered], 0
    yield from text_runs(at, count, chain)


def text_runs(at, count, chain):
    """The same keys from JSON texts."""
    row = lambda length: {"kind": "datum", "account_id": "alice", "key": "6b" * length, "value": "76"}
    key = {"kind": "key", "account_id": "alice", "public_key": f"ed25519:{'01' * 32}",
           "access_key": {"nonce": 0, "permission": "FullAccess"}}
    account = {"kind": "account", "account_id": "alice", "amount": str(10**20), "locked": "0"}
    rows = [account, key, *(row(length) for length in range(1, count + 1))]
    genesis = at("nested.json", json.dumps({"boundaries": ["mm"], "entries": rows}).encode())
    blocks = [{"height": height, "timestamp": height, "chunks": [[], []]} for height in (1, 2, 3)]
    blocks = at("nested-blocks.json", json.dumps({"blocks": blocks}).encode())
    name = f"{count} keys in one another, from texts"
    yield name, "near_files", ["genesis", "free", genesis], 0
    yield name, "near_files", ["replay", "free", genesis, blocks], 0
    yield name, "near_files", ["check", "free", genesis, blocks, chain[-1] + "-rest"], 0


def other_runs(at):
    lines = at("lines", b"seal 0\n" * 149_000)
    example = [chains.example("one_transfer", part) for part in ("genesis", "blocks")]
    yield "schedule, 149,000 lines", "near_serial", ["check", "free", *example, lines], 0
    many = [chains.transaction(turn, b"bob", [b"\3" + bytes(16)] * 100) for turn in range(1, 301)]
    blocks = at("many", chains.blocks([[many], [[]]]))
    yield "30,000 actions in a chunk", "near_serial", ["run", "free", example[0], blocks], 0
    yield "30,000 actions in a chunk", "near_replay", ["replay", "free", example[0], blocks], 0
    yield "30,000 actions in a chunk", "near_audit", ["gather", "free", example[0], blocks], 0
    yield "16 shards", "near_serial", ["gen", "7", "16", "20"], 0
    yield "16 shards", "near_replay", ["gen", "7", "16", "20"], 0


def under(words, kib, limit):
    return shared.limited(words, {resource.RLIMIT_STACK: kib * 1024}, seconds=limit)


def least(words, right, limit):
    """The least of the stacks from which on the run is right."""
    serves = None
    for kib in reversed(STACKS):
        if under(words, kib, limit)[:3] != right[:3]:
            break
        serves = kib
    return serves


def ready(until):
    global late
    late = until


def tried(task):
    """A command as the shell's limits are and under the small stack: how it ended, and what was wrong."""
    key, (case, status, stack, limit, with_least) = task
    if tries.is_late(late):
        return key, None
    right = shared.limited(case.words, {}, seconds=limit)
    begin = time.monotonic()
    ran = under(case.words, stack, limit)
    seconds, wrong = time.monotonic() - begin, []
    if right.status != status or ran[:3] != right[:3]:
        wrong.append(f"status {right.status} for {status}, {len(right.out)} bytes written, {right.err[-200:]!r}; under "
                     f"the small stack {ran.status}, {len(ran.out)} bytes written, {ran.err[-200:]!r}")
    serves = least(case.words, right, limit) if with_least else None
    return key, {"right": right.status, "ran": ran.status, "seconds": seconds, "least": serves, "wrong": wrong}


def tasks_of(folder, found, arguments):
    """The commands, as pairs of a key and a task: those that take long first."""
    at = lambda name, data: shared.write(f"{folder}/{name}", data)
    keys = key_runs(at, arguments.keys, found.get("near_serial"))
    for rows in (keys, other_runs(at), texts(at), module_runs(at), chain_runs(at)):
        for name, program, words, status in rows:
            case = shared.Case(name, program, [found.get(program), *words])
            if program in found and shared.fits(case, arguments.only):
                verb = " ".join(words[: 2 if words[0] == "show" else 1])
                key = f"{program} {verb} | {name} | {arguments.stack}"
                yield key, (case, status, arguments.stack, arguments.limit, arguments.least)


def main():
    more = [("--stack", {"type": int, "default": 256}), ("--keys", {"type": int, "default": 11_200}),
            ("--least", {"action": "store_true"})]
    arguments, begin = shared.arguments_of(__doc__, *more), time.monotonic()
    found, count, wrong = shared.programs_in(arguments.programs), 0, 0
    state, until = tries.State(arguments.state, found), tries.until_of(arguments)
    print("| Command | Input | Stack, KiB | Status | Under the small stack | Seconds | Least stack, KiB |")
    print("|---|---|---|---|---|---|---|")
    with tempfile.TemporaryDirectory() as folder:
        with multiprocessing.Pool(arguments.jobs, ready, (until,)) as pool:
            for key, value in tries.carried_out(pool, tried, tasks_of(folder, found, arguments), state):
                count += 1
                least_of = value["least"] if arguments.least else "-"
                ends = f"{value['right']} | {value['ran']} | {value['seconds']:.2f} | {least_of}"
                print(f"| {key} | {ends} |", flush=True)
                for text in value["wrong"]:
                    wrong += 1
                    print(f"  WRONG {key}: {text}", flush=True)
    tries.close(f"stack: {count} commands under {arguments.stack} KiB", wrong, begin)


if __name__ == "__main__":
    main()
