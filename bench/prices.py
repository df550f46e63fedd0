#!/usr/bin/env python3
"""Measures what fields that an author chooses cost for the gas that they burn, and prints nanoseconds for one gas.

usage: bench/prices.py [--program PATH] [--tries N] [--only WORD] [--write FOLDER]

Each row is a chain under examples/config/generated.json, with a little of an input and with much of it: the time is the
processor time of the second less that of the first, each the least of the tries, the gas is that of their chunks, and
the memory is what the second held more at its greatest. A run counts only where its receipts ended as the row says.
With --write it writes the small chains into a folder, with the words of a run and how its receipts have to end, and
runs nothing. Build the program first: cd crates/near_serial && rt run.
"""
import argparse
import os
import re
import sys
import tempfile
from typing import Callable, NamedTuple

HERE = os.path.dirname(os.path.abspath(__file__))
sys.path.insert(0, os.path.join(HERE, "..", "hostile"))
import chains
from chains import FOR_ALL, KEY, LONG_KEY, counted, for_calls, transaction, u64, u128
from module import body, call, const32, const64, name, section, unsigned, vector

CONFIG = os.path.join(HERE, "..", "examples", "config", "generated.json")
RICH = 10**30
MUCH_GAS = 10**11
GET, SET, TEE, DROP, END, LOOP, BLOCK, EMPTY = b"\x20", b"\x21", b"\x22", b"\x1a", b"\x0b", b"\x03", b"\x02", b"\x40"
UNREACHABLE = b"\x00"
MANY = 50_000
NO_TYPES = "failure 0 13 11"

# The functions of the host that are used: how many parameters, and whether there is a result.
HOST = {
    "register_len": (1, 1), "write_register": (3, 0), "input": (1, 0), "account_balance": (1, 0),
    "sha256": (3, 0), "value_return": (2, 0), "storage_write": (5, 1), "storage_read": (3, 1),
    "storage_remove": (3, 1), "storage_has_key": (2, 1), "promise_batch_create": (2, 1), "promise_and": (2, 1),
    "promise_batch_then": (3, 1), "promise_batch_action_transfer": (2, 0), "used_gas": (0, 1), "block_index": (0, 1),
    "read_register": (2, 0), "log_utf8": (2, 0), "promise_batch_action_add_key_with_function_call": (9, 0),
}


class Row(NamedTuple):
    """Who chooses what, the chain of so much of it, how much is little and much, and how its receipts end."""
    author: str
    field: str
    chain: Callable
    little: int
    much: int
    ends: str = "value"


def module(code, imports=(), types=(), functions=(), pages=0, table=0, locals_of_run=2, others=()):
    """A module with a method `run`; functions are pairs of a type's number, from 0, and a body."""
    kinds = [b"\x60\x00\x00"] + [b"\x60" + b"".join(vector([b"\x7e"] * many) for many in HOST[one]) for one in imports]
    own = [(len(kinds) + kind if kind is not None else 0, code) for kind, code in functions]
    run = vector([unsigned(locals_of_run) + b"\x7e"]) + code + END
    bodies = [unsigned(len(run)) + run] + [code for _, code in own]
    parts = {
        1: vector(kinds + list(types)),
        2: vector([name("env") + name(one) + b"\x00" + unsigned(place + 1) for place, one in enumerate(imports)]),
        3: vector([unsigned(0)] + [unsigned(kind) for kind, _ in own]),
        5: b"\x01\x00" + unsigned(pages),
        7: vector([name("run") + b"\x00" + unsigned(len(imports))]),
        10: vector(bodies),
    }
    if table:
        parts[4] = b"\x01\x70\x00" + unsigned(table)
    parts.update(dict(others))
    return b"\0asm\1\0\0\0" + b"".join(section(number, parts[number]) for number in sorted(parts))


def rounds(count, code):
    """The code again and again, counted by the local 0."""
    down = GET + b"\x00" + const64(1) + b"\x7d" + TEE + b"\x00" + b"\x50\x45\x0d\x00"
    return const64(count) + SET + b"\x00" + LOOP + EMPTY + code + down + END


def blocks_of(transactions, least=0):
    """A block for each transaction, empty ones up to the least number, and four more."""
    rows = [[[one]] for one in transactions] + [[[]]] * (max(0, least - len(transactions)) + 4)
    return chains.blocks(rows)


def people(code=None, data=(), keys=((KEY, FOR_ALL),)):
    accounts = {b"alice": (RICH, None, list(keys), [])}
    if code is not None:
        accounts[b"con"] = (RICH, code, [], list(data))
    return chains.genesis([], accounts)


def called(code, count=1, gas=MUCH_GAS, args=b"", data=(), least=0):
    """Alice calls the method `run` of a code so many times."""
    calls = [transaction(nonce + 1, b"con", [chains.call(b"run", args, gas)]) for nonce in range(count)]
    return people(code, data), blocks_of(calls, least)


def sent(count, actions, receiver=b"alice", least=0):
    """Alice sends actions so many times."""
    return people(), blocks_of([transaction(nonce + 1, receiver, actions) for nonce in range(count)], least)


def transfer(amount=1):
    return b"\x03" + u128(amount)


# Transactions

def transfers(count):
    return sent(count, [transfer()], least=4_000)


def many_actions(count):
    return sent(count, [transfer()] * 100, least=200)


def long_ids(count):
    ids = [(b"%032d" % number + b"a" * 32) for number in range(2)]
    accounts = {one: (RICH, None, [(LONG_KEY, FOR_ALL)], []) for one in ids}
    signed = [transaction(nonce + 1, ids[1], [transfer()], ids[0], LONG_KEY) for nonce in range(count)]
    return chains.genesis([], accounts), blocks_of(signed, 4_000)


def deployed(size):
    return sent(8, [b"\x01" + counted(bytes(size))])


def long_args(size):
    calls = [transaction(nonce + 1, b"con", [chains.call(b"run", bytes(size), 1_000)]) for nonce in range(8)]
    return people(module(b"")), blocks_of(calls)


def long_method(size):
    calls = [transaction(nonce + 1, b"con", [chains.call(b"r" * size, b"", 1_000)]) for nonce in range(8)]
    return people(module(b"")), blocks_of(calls)


def made_accounts(count):
    made = [transaction(nonce + 1, b"a%d.alice" % nonce, [b"\x00", transfer(10**6)]) for nonce in range(count)]
    return people(), blocks_of(made, 2_000)


def added_keys(count):
    keys = [b"\x05\x00" + u64(number) + bytes(24) + u64(0) + FOR_ALL for number in range(count)]
    hundreds = [keys[first : first + 100] for first in range(0, count, 100)]
    return people(), blocks_of([transaction(place + 1, b"alice", some) for place, some in enumerate(hundreds)], 40)


def empty_methods(count):
    key = b"\x05\x00" + bytes(32) + u64(0) + for_calls(None, b"con", [b""] * count)
    return sent(1, [key], b"alice")


def signed_by_methods(count):
    methods = [b"m%07d" % number for number in range(MANY)] + [b"run"]
    keys = [(KEY, for_calls(None, b"con", methods))]
    calls = [transaction(nonce + 1, b"con", [chains.call(b"run", b"", 1_000)]) for nonce in range(count)]
    return people(module(b""), keys=keys), blocks_of(calls, 100)


def deleted(count):
    """Accounts with as much storage as one that is deleted may have delete themselves."""
    data = [(b"%02x" % number, b"") for number in range(233)]
    accounts = {b"d%d" % number: (RICH, None, [(KEY, FOR_ALL)], data) for number in range(20)}
    accounts[b"alice"] = (RICH, None, [], [])
    gone = [transaction(1, b"d%d" % number, [b"\x07" + counted(b"alice")], b"d%d" % number) for number in range(count)]
    return chains.genesis([], accounts), blocks_of(gone, 20)


def refused(count):
    """Transactions of 100,000 bytes whose nonce was used: they burn nothing."""
    calls = [transaction(0, b"con", [chains.call(b"run", bytes(100_000), 1)]) for _ in range(count)]
    return people(module(b"")), blocks_of(calls, 200)


def refused_by_methods(count):
    """Transactions that a key of 50,001 methods forbids: they burn nothing."""
    keys = [(KEY, for_calls(None, b"con", [b"m%07d" % number for number in range(MANY + 1)]))]
    calls = [transaction(nonce + 1, b"con", [chains.call(b"run", b"", 1_000)]) for nonce in range(count)]
    return people(module(b""), keys=keys), blocks_of(calls, 200)


def refused_by_receiver(count):
    """The same by a key for a receiver of 1,000,000 bytes, which no account is."""
    calls = [transaction(nonce + 1, b"con", [chains.call(b"run", b"", 1_000)]) for nonce in range(count)]
    return people(module(b""), keys=[(KEY, for_calls(None, b"c" * 1_000_000, [b"run"]))]), blocks_of(calls, 200)


# What a contract's code is made of

def looped(code, imports=(), repeat=20, **more):
    """Four calls of a loop over the code."""
    return lambda count: called(module(rounds(count, code * repeat), imports, **more), 4, data=DATA)


DATA = [(b"k" * 8, b"v" * 100), (b"big", bytes(1_000_000))]
FUNCTION = b"\x60\x00\x00"
LOCALS = [(0, (lambda whole: unsigned(len(whole)) + whole)(vector([unsigned(30_000) + b"\x7e"]) + END))]
ONE_ELEMENT = [(9, vector([b"\x00" + const32(0) + END + vector([unsigned(1)])]))]
EMPTY_ONE = {"types": [FUNCTION], "functions": [(0, body(b""))]}
NESTED = (BLOCK + EMPTY) * 200 + b"\x0c\xc7\x01" + END * 200
BIG_KEY = [(11, vector([b"\x00" + const32(0) + END + name("big")]))]
LABELS = BLOCK + EMPTY + const32(0) + b"\x0e" + vector([unsigned(0)] * 50) + b"\x00" + END


def idle(count, **more):
    """Calls of a method that does nothing."""
    return called(module(b"", **more), count, gas=1_000_000, least=100)


def grown(count):
    return called(module(const32(64) + b"\x40\x00" + DROP), count, gas=1_000_000, least=100)


def recursing(count):
    """A function that calls itself 500 times, with 100 locals a frame, and comes back."""
    step = GET + b"\x00\x50\x04" + EMPTY + b"\x05" + GET + b"\x00" + const64(1) + b"\x7d" + call(1) + END
    whole = vector([unsigned(100) + b"\x7e"]) + step + END
    functions = [(0, unsigned(len(whole)) + whole)]
    return called(module(rounds(count, const64(500) + call(1)), types=[b"\x60\x01\x7e\x00"], functions=functions), 4)


# Code that is decoded and judged anew at each call, since its last body leaves an operand that nobody takes

WRONG = (None, body(const64(0)))


def judged(functions, types=(), count=4, others=()):
    return called(module(b"", types=types, functions=list(functions) + [WRONG], others=others), count, gas=10_000_000)


def many_functions(count):
    filler = body(b"\x20\x00" + b"".join(const64(64 + place) + b"\x7c" for place in range(20)))
    return judged([(0, filler)] * count, [b"\x60\x01\x7e\x01\x7e"])


def many_locals(count):
    whole = vector([unsigned(MANY - 1) + b"\x7e"]) + END
    return judged([(0, unsigned(len(whole)) + whole)] * count, [FUNCTION])


def many_parameters(count):
    return judged([(0, body(b""))] * count, [b"\x60" + vector([b"\x7e"] * 10_000) + b"\x00"])


def dead_calls(count):
    wide = b"\x60" + vector([b"\x7e"] * 10_000) + b"\x00"
    return judged([(0, body(b"")), (None, body(UNREACHABLE + call(1) * count))], [wide])


def dead_indirect_calls(count):
    wide = b"\x60" + vector([b"\x7e"] * 10_000) + b"\x00"
    functions = [(None, body(UNREACHABLE + (b"\x11" + unsigned(1) + b"\x00") * count))]
    return judged(functions, [wide], others=[(4, b"\x01\x70\x00\x01")])


def many_labels(count):
    table = const32(0) + b"\x0e" + vector([unsigned(0)] * 10_000) + b"\x00"
    return judged([(None, body((BLOCK + EMPTY + table + END) * count))])


def many_exports(count):
    exports = vector([name("run") + b"\x00\x00"] + [name("%x" % number) + b"\x00\x00" for number in range(count)])
    return judged([], others=[(7, exports)])


def many_blocks(count):
    return judged([(None, body((BLOCK + EMPTY) * 200 * 1 + END * 200))] * count)


# Storage and promises

HEIGHT = const32(0) + call(1) + b"\x37\x03\x08"


def write_counted(size):
    """Stores the counter of rounds at 0, and writes the empty datum under the first so many bytes."""
    return const32(0) + GET + b"\x00\x37\x03\x00" + const64(size) + const64(0) * 4 + call(0) + DROP


def new_keys(count):
    """Each call writes a thousand data under keys of 16 bytes, a counter and the height."""
    code = HEIGHT + rounds(1_000, write_counted(16))
    return called(module(code, ("storage_write", "block_index"), pages=1), count, least=20)


def nested_keys(count):
    """A call writes under the keys `0`, `00`, `000` and so on, up to so many bytes."""
    write = GET + b"\x00" + const64(0) * 4 + call(0) + DROP
    return called(module(rounds(count, write), ("storage_write",), pages=1), 1)


def deepest_key(count):
    """Over a state whose keys nest 2,000 deep, calls in blocks of their own write the deepest datum."""
    data = [(b"k" * size, b"") for size in range(1, 2_001)]
    write = const64(2_000) + const64(8) + const64(1) + const64(0) * 2 + call(0) + DROP
    eight = const64(int.from_bytes(b"k" * 8, "little"))
    fill = rounds(250, const32(0) + GET + b"\x00\xa7" + const32(3) + b"\x74\x6a" + eight + b"\x37\x03\x00")
    return called(module(fill + write, ("storage_write",), pages=1), count, data=data, least=20)


def read_without_gas(count):
    """Calls that ask for a datum of 1,000,000 bytes with too little gas for it."""
    read = const64(3) + const64(0) + const64(0) + call(0) + DROP
    return called(module(read, ("storage_read",), pages=1, others=BIG_KEY), count, gas=2_000, data=DATA, least=100)


def read_back(count):
    """Calls of a loop that copies a register of 65,536 bytes into memory."""
    code = consts(0, 65_536, 0) + call(0) + rounds(count, (consts(0, 0) + call(1)) * 4)
    return called(module(code, ("write_register", "read_register"), pages=1), 4)


def logged(count):
    """Calls that each log as much as one may, in a hundred texts."""
    return called(module(rounds(100, consts(160, 0) + call(0)), ("log_utf8",), pages=1), count, least=100)


def undone(count):
    """Calls that write a thousand data and then trap."""
    return called(module(rounds(1_000, write_counted(8)) + UNREACHABLE, ("storage_write",), pages=1), count, least=20)


CON = [(11, vector([b"\x00" + const32(0) + END + name("con")]))]


def key_of_names(count):
    """Calls that each add a key with 10,001 empty names to a receipt, and then trap."""
    parts = [b"\x00" + const32(0) + END + name("con"), b"\x00" + const32(1_000) + END + name("," * 10_000)]
    key = const64(3) + const64(0) + call(0) + consts(33, 100, 0, 200, 3, 0, 10_000, 1_000) + call(1)
    host = ("promise_batch_create", "promise_batch_action_add_key_with_function_call")
    return called(module(key + UNREACHABLE, host, pages=1, others=[(11, vector(parts))]), count, least=20)


def promises(count, more=b"", imports=()):
    """Calls that make 500 receipts for themselves, each without an action."""
    create = const64(3) + const64(0) + call(0)
    code = rounds(500, create + SET + b"\x01" + more)
    return called(module(code, ("promise_batch_create",) + imports, pages=1, others=CON), count, least=400)


def with_transfer(count):
    """The same, each with a transfer of no tokens."""
    return promises(count, GET + b"\x01" + const64(64) + call(1), ("promise_batch_action_transfer",))


def waiting(count):
    """Calls that make 250 receipts for themselves, and for each another one that waits for its result."""
    code = rounds(250, (const64(3) + const64(0) + call(0)) + (const64(3) + const64(0) + call(1)) + DROP)
    return called(module(code, ("promise_batch_create", "promise_batch_then"), pages=1, others=CON), count, least=400)


def joined(count):
    """Calls that join 128 receipts, and then the joint promise alone, a thousand times."""
    below = GET + b"\x00" + const64(1) + b"\x7d"
    store = const32(0) + below + b"\xa7" + const32(3) + b"\x74\x6a" + below + b"\x37\x03\x08"
    made = rounds(128, const64(3) + const64(0) + call(0) + DROP + store)
    both = const64(8) + const64(128) + call(1) + SET + b"\x01" + const32(0) + GET + b"\x01" + b"\x37\x03\x08"
    again = rounds(500, const64(8) + const64(1) + call(1) + DROP)
    code = module(made + both + again, ("promise_batch_create", "promise_and"), pages=1, others=CON)
    return called(code, count, least=20)


def host(field, code, imports, much=20_000, ends="value", **more):
    return Row("contract", field, looped(code, imports, 4, pages=2, **more), much // 100, much, ends)


def consts(*numbers):
    return b"".join(const64(number - 2**64 if number > 2**63 else number) for number in numbers)


ROWS = [
    Row("transaction", "one transfer", transfers, 100, 4_000),
    Row("transaction", "a hundred transfers", many_actions, 2, 200),
    Row("transaction", "ids of 64 bytes, keys of 64", long_ids, 100, 4_000),
    Row("transaction", "an account made", made_accounts, 20, 2_000),
    Row("transaction", "keys added, a hundred at once", added_keys, 100, 4_000),
    Row("transaction", "code that is deployed, its bytes", deployed, 1_000, 1_000_000),
    Row("transaction", "arguments, their bytes", long_args, 1_000, 1_000_000),
    Row("transaction", "a method's name, its bytes", long_method, 1_000, 1_000_000, "failure 0 14 0"),
    Row("transaction", "a key's methods, empty ones", empty_methods, 1_000, 200_000),
    Row("transaction", "signed by a key of 50,001 methods", signed_by_methods, 2, 100),
    Row("transaction", "refused by a key of 50,001 methods", refused_by_methods, 2, 200, ""),
    Row("transaction", "refused by a key for a text of 1,000,000 bytes", refused_by_receiver, 2, 200, ""),
    Row("transaction", "an account of 233 data deleted", deleted, 1, 20),
    Row("transaction", "refused, 100,000 bytes", refused, 2, 200, ""),
    Row("contract", "additions", looped(GET + b"\x01" + GET + b"\x01\x7c" + SET + b"\x01"), 100, 100_000),
    Row("contract", "divisions", looped(GET + b"\x00" + const64(3) + b"\x80" + SET + b"\x01"), 100, 100_000),
    Row("contract", "bits that are set", looped(GET + b"\x00\x7b" + SET + b"\x01"), 100, 100_000),
    Row("contract", "loads", looped(const32(0) + b"\x29\x03\x00" + SET + b"\x01", pages=1), 100, 100_000),
    Row("contract", "stores", looped(const32(0) + GET + b"\x00\x37\x03\x00", pages=1), 100, 100_000),
    Row("contract", "blocks", looped(BLOCK + EMPTY + END), 100, 100_000),
    Row("contract", "labels of a table", looped(LABELS), 100, 50_000),
    Row("contract", "blocks in one another, left at once", looped(NESTED, repeat=1), 100, 20_000),
    Row("contract", "calls of an empty function", looped(call(1), **EMPTY_ONE), 100, 50_000),
    Row("contract", "calls of a function with 30,000 locals",
        looped(call(1), repeat=1, types=[FUNCTION], functions=LOCALS), 10, 5_000),
    Row("contract", "calls by the table",
        looped(const32(0) + b"\x11\x01\x00", table=1, others=ONE_ELEMENT, **EMPTY_ONE), 100, 50_000),
    Row("contract", "calls in one another, 500 deep", recursing, 2, 200),
    Row("contract", "the memory's size", looped(b"\x3f\x00" + DROP, pages=1), 100, 100_000),
    Row("contract", "a memory of 64 pages", lambda count: idle(count, pages=64), 2, 100),
    Row("contract", "a memory that grows by 64 pages", grown, 2, 100),
    Row("contract", "a table of 100,000", lambda count: idle(count, table=100_000), 2, 100),
    Row("contract", "no memory", idle, 2, 100),
    Row("code that is judged", "functions of 84 bytes", many_functions, 10, 4_000, NO_TYPES),
    Row("code that is judged", "functions with 49,999 locals", many_locals, 10, 400, NO_TYPES),
    Row("code that is judged", "functions of a type with 10,000 parameters", many_parameters, 10, 4_000, NO_TYPES),
    Row("code that is judged", "calls with 10,000 parameters that are never reached", dead_calls, 10, 4_000, NO_TYPES),
    Row("code that is judged", "calls by the table, likewise", dead_indirect_calls, 10, 4_000, NO_TYPES),
    Row("code that is judged", "tables of 10,000 labels", many_labels, 1, 20, NO_TYPES),
    Row("code that is judged", "exports", many_exports, 10, 20_000, NO_TYPES),
    Row("code that is judged", "blocks in one another", many_blocks, 10, 1_000, NO_TYPES),
    host("`used_gas`", call(0) + DROP, ("used_gas",)),
    host("`register_len`", const64(0) + call(0) + DROP, ("register_len",)),
    host("`account_balance`", const64(0) + call(0), ("account_balance",)),
    host("`input`, no bytes", const64(0) + call(0), ("input",)),
    host("`write_register`, 65,536 bytes", consts(0, 65_536, 0) + call(0), ("write_register",), 500),
    host("`sha256`, no bytes", consts(0, 0, 0) + call(0), ("sha256",)),
    host("`sha256`, 65,536 bytes", consts(65_536, 0, 0) + call(0), ("sha256",), 500),
    host("`value_return`, no bytes", consts(0, 0) + call(0), ("value_return",)),
    host("`storage_has_key`, 8 bytes", consts(8, 0) + call(0) + DROP, ("storage_has_key",)),
    host("`storage_has_key`, 2,048 bytes", consts(2_048, 0) + call(0) + DROP, ("storage_has_key",), 5_000),
    host("`storage_read`, nothing there", consts(8, 0, 0) + call(0) + DROP, ("storage_read",)),
    host("`storage_read`, 1,000,000 bytes", consts(3, 0, 0) + call(0) + DROP, ("storage_read",), 100, others=BIG_KEY),
    host("`storage_remove`, nothing there", consts(8, 0, 0) + call(0) + DROP, ("storage_remove",)),
    host("`storage_write`, one key, no bytes", consts(8, 0, 0, 0, 0) + call(0) + DROP, ("storage_write",)),
    host("`storage_write`, one key, 65,536 bytes", consts(8, 0, 65_536, 0, 0) + call(0) + DROP,
         ("storage_write",), 500),
    Row("contract", "`storage_write`, a thousand new keys a call", new_keys, 1, 20),
    Row("contract", "`storage_write`, keys in one another", nested_keys, 10, 2_000),
    Row("contract", "`storage_write`, 2,000 keys above it", deepest_key, 1, 20),
    Row("contract", "`storage_read`, 1,000,000 bytes, with too little gas", read_without_gas, 2, 100, "failure 0 17 0"),
    Row("contract", "a thousand writes that are undone", undone, 1, 20, "failure 0 15 1"),
    Row("contract", "`read_register`, 65,536 bytes", read_back, 5, 500),
    Row("contract", "`log_utf8`, a hundred texts of 160 bytes a call", logged, 1, 100),
    Row("contract", "a key of 10,001 empty names", key_of_names, 1, 20, "failure 0 15 1"),
    Row("contract", "500 receipts without an action", promises, 1, 20),
    Row("contract", "250 receipts that wait for 250 others", waiting, 1, 20),
    Row("contract", "500 receipts with a transfer", with_transfer, 1, 20),
    Row("contract", "a joint promise of 128, joined again", joined, 1, 20),
]


def gas_of(report, ends):
    """The gas of a report's chunks; none where a receipt that isn't a refund ended otherwise."""
    gas, told = 0, []
    for line in report.splitlines():
        words = line.split()
        if words[0] == "chunk":
            gas += int(words[4])
        elif words[0] == "run":
            told.append(" ".join(words[2 : 6 if words[2] == "failure" else 3]))
    good = {"value", ends}
    return gas if set(told) <= good and (not ends or ends in told) else None


def written(folder, files):
    paths = [os.path.join(folder, part) for part in ("genesis", "blocks")]
    for path, data in zip(paths, files):
        with open(path, "wb") as out:
            out.write(data)
    return ["run", os.path.abspath(CONFIG), *paths]


def run(words, path):
    """The status of a run, its report, its processor seconds, and the most MiB that it held."""
    report = os.open(path, os.O_WRONLY | os.O_CREAT | os.O_TRUNC)
    child = os.posix_spawn(words[0], words, os.environ, file_actions=[(os.POSIX_SPAWN_DUP2, report, 1)])
    _, status, used = os.wait4(child, 0)
    os.close(report)
    with open(path) as file:
        return os.waitstatus_to_exitcode(status), file.read(), used.ru_utime + used.ru_stime, used.ru_maxrss / 1024


def timed(program, row, count, tries):
    """The least processor time of a run with so much, its gas, and the most MiB."""
    with tempfile.TemporaryDirectory() as folder:
        words = [program, *written(folder, row.chain(count))]
        runs = [run(words, os.path.join(folder, "report")) for _ in range(tries)]
    status, report, _, held = runs[0]
    gas = gas_of(report, row.ends) if status == 0 else None
    if gas is None:
        sys.exit(f"{row.field}, {count}: status {status}, {sorted(set(re.findall('run [0-9a-f]+ (.*)', report)))[:9]}")
    return min(taken for _, _, taken, _ in runs), gas, held


def measure(program, row, tries):
    few, many = (timed(program, row, count, tries) for count in (row.little, row.much))
    taken, gas, held = (much - little for little, much in zip(few, many))
    each = f"{taken / gas * 1e9:,.1f}" if gas else f"no gas; {taken / (row.much - row.little) * 1e6:,.0f} µs each"
    print(f"| {row.author} | {row.field} | {gas:,} | {taken:.3f} | {each} | {max(0, held):.0f} |", flush=True)


def main():
    parser = argparse.ArgumentParser()
    parser.add_argument("--program", default=os.path.join(HERE, "..", "crates", "near_serial", "out", "near_serial"))
    parser.add_argument("--tries", type=int, default=3)
    parser.add_argument("--only", default="")
    parser.add_argument("--write")
    arguments = parser.parse_args()
    rows = [row for row in ROWS if arguments.only in row.author + " " + row.field]
    if arguments.write:
        for number, row in enumerate(rows):
            folder = os.path.join(arguments.write, f"row{number}")
            os.makedirs(folder, exist_ok=True)
            words = written(folder, row.chain(row.little))
            with open(os.path.join(folder, "words"), "w") as out:
                out.write("\n".join([row.field, row.ends, *words]) + "\n")
        return
    if not os.path.exists(arguments.program):
        sys.exit("no program: build it first (cd crates/near_serial && rt run)")
    print("| Author of | Chooses | Gas | Seconds | ns a gas | MiB |")
    print("|---|---|---|---|---|---|")
    for row in rows:
        measure(arguments.program, row, arguments.tries)


if __name__ == "__main__":
    main()
