"""Modules that the scripts run on, made of bytes by the helpers of bench/module.py."""
import os
import sys

sys.path.insert(0, os.path.join(os.path.dirname(os.path.abspath(__file__)), "..", "bench"))
from module import body, call, const32, const64, name, section, unsigned, vector

GET, SET, TEE, END, EMPTY, LONG = b"\x20\x00", b"\x21\x00", b"\x22\x00", b"\x0b", b"\x40", b"\x7e"
BLOCK, LOOP, IF, ELSE, DROP, BRANCH = b"\x02", b"\x03", b"\x04", b"\x05", b"\x1a", b"\x0c"
NOTHING, STEP = b"\x60\x00\x00", b"\x60\x01\x7e\x01\x7e"


def whole(types, functions, bodies, exports, others=()):
    """A module: types, a type for each function, bodies, exported methods, and other sections by number."""
    parts = {1: vector(types), 3: vector([unsigned(kind) for kind in functions]), 10: vector(bodies),
             7: vector([name(text) + b"\x00" + unsigned(place) for text, place in exports]), **dict(others)}
    return b"\0asm\1\0\0\0" + b"".join(section(number, parts[number]) for number in sorted(parts))


def lively(turns=12):
    """`run` calls a function of itself through a table, over a memory, and branches by a table of labels."""
    step = GET + b"\x50" + IF + LONG + const64(0) + ELSE
    step += GET + const64(1) + b"\x7d" + const32(0) + b"\x11" + unsigned(1) + b"\x00"
    step += b"\xa7" + const32(1023) + b"\x71" + GET + b"\x37\x03\x00" + GET + END
    run = LOOP + EMPTY + const64(turns) + call(0) + DROP + BLOCK + EMPTY + BLOCK + EMPTY
    run += const32(1) + b"\x0e" + vector([unsigned(1), unsigned(0)]) + b"\x00" + END + END + END
    run += const32(1) + b"\x40\x00" + DROP
    others = [(4, b"\x01\x70\x00\x01"), (5, b"\x01\x00\x02"), (6, b"\x01\x7e\x01" + const64(7) + END),
              (9, vector([b"\x00" + const32(0) + END + vector([unsigned(0)])])),
              (11, vector([b"\x00" + const32(16) + END + name("some data")]))]
    return whole([NOTHING, STEP], [1, 0], [body(step), body(run)], [("run", 1)], others)


def nested(depth, opening=BLOCK):
    """`run` has so many blocks in one another, each with a result that the next one adds to."""
    condition = const32(1) if opening == IF else b""
    code = const64(1)
    for _ in range(depth):
        code = condition + opening + LONG + code + const64(1) + b"\x7c"
        code += ELSE + const64(2) + END if opening == IF else END
    return whole([NOTHING], [0], [body(code + DROP)], [("run", 0)])


def recursing(values=0):
    """`run` calls a function that calls itself without an end, with so many values beneath each call."""
    step = const64(1) * values + GET + const64(1) + b"\x7c" + call(0) + DROP * (values + 1) + const64(0)
    return whole([NOTHING, STEP], [1, 0], [body(step), body(const64(0) + call(0) + DROP)], [("run", 1)])


def stopping():
    """`run` comes to no end."""
    return whole([NOTHING], [0], [body(b"\x00")], [("run", 0)])


def unfit():
    """A module that is valid and never runs: its segment doesn't fit into its memory."""
    segment = b"\x00" + const32(65536) + END + name("x")
    return whole([NOTHING], [0], [body(b"")], [("run", 0)], [(5, b"\x01\x00\x01"), (11, vector([segment]))])


def long_body(count):
    """`run` pushes so many values and drops them: operands, and no blocks."""
    return whole([NOTHING], [0], [body(const64(1) * count + DROP * count)], [("run", 0)])
