"""The chains that the scripts run on, as bytes of files (docs/FORMATS.md)."""
import hashlib
import json
import os
import struct

EXAMPLES = os.path.join(os.path.dirname(os.path.abspath(__file__)), "..", "examples")
KEY = b"\0" + b"\1" * 32
LONG_KEY = b"\1" + b"\2" * 64
FOR_ALL = b"\1"
STEPS = (b"open 0\nseal 0\nreshard\npublish 0\nopen 2\nrest\nreshard\nopen 1\n")
SCHEDULE = (b"open 1\nopen 0\nopen 0\nseal 0\nseal 1\npublish 1\npublish 0\nopen 0\ntake 0 1 1\ntake 0 1 1\n"
            b"take 0 0 18446744073709551615\nrest\nopen 0\n")


def example(*names):
    return os.path.join(EXAMPLES, *names)


def bytes_of(*names):
    with open(example(*names), "rb") as file:
        return file.read()


def u32(number):
    return struct.pack("<I", number)


def u64(number):
    return struct.pack("<Q", number)


def u128(number):
    return number.to_bytes(16, "little")


def counted(data):
    return u32(len(data)) + data


def listed(items):
    return u32(len(items)) + b"".join(items)


def for_calls(allowance, receiver, methods):
    some = b"\0" if allowance is None else b"\1" + u128(allowance)
    return b"\0" + some + counted(receiver) + listed([counted(method) for method in methods])


def genesis(boundaries, accounts, price=(100, 40)):
    """Accounts by their ids, each (amount, code or None, keys with permissions, data by keys), with their usage."""
    entries = []
    for name, (amount, code, keys, data) in accounts.items():
        records = [len(key) + 8 + len(may) for key, may in keys] + [len(key) + len(value) for key, value in data]
        usage = price[0] + len(code or b"") + sum(size + price[1] for size in records)
        digest = hashlib.sha256(code).digest() if code is not None else bytes(32)
        entries.append(b"\0" + counted(name) + u128(amount) + bytes(16) + digest + u64(usage))
        entries += [b"\1" + counted(name) + counted(code)] if code is not None else []
        entries += [b"\2" + counted(name) + key + u64(0) + may for key, may in keys]
        entries += [b"\3" + counted(name) + counted(key) + counted(value) for key, value in data]
    return b"NRG1" + listed([counted(name) for name in boundaries]) + listed(entries)


def transaction(nonce, receiver, actions, signer=b"alice", key=KEY):
    return counted(signer) + key + u64(nonce) + counted(receiver) + bytes(32) + listed(actions)


def call(method, data=b"", gas=10_000, deposit=0):
    return b"\2" + counted(method) + counted(data) + u64(gas) + u128(deposit)


def blocks(rows, prices=None, change=None):
    """Blocks of rows of chunks, each None or a list of transactions; with prices, of version 2. With a change, which is
    a height and the boundaries from there on, of version 3, in which each block has a price."""
    parts = [b"NRB3" if change else b"NRB2" if prices else b"NRB1"]
    if change:
        height, boundaries = change
        parts.append(b"\1" + u64(height) + listed([counted(name) for name in boundaries]))
    parts.append(u32(len(rows)))
    for place, row in enumerate(rows):
        parts.append(u64(place + 1) + u64(10**9 * (place + 1)) + (u64(prices[place]) if prices else b""))
        parts.append(listed([b"\0" if chunk is None else b"\1" + listed(chunk) for chunk in row]))
    return b"".join(parts)


def busy_blocks(heights=12):
    """Over the genesis of examples/contract: three calls in each of four blocks, and chunks that are missing."""
    rows = []
    for height in range(1, heights + 1):
        turns = range(3 * height - 2, 3 * height + 1) if height <= 4 else ()
        calls = [transaction(turn, b"desk", [call(b"ask", b"text %d" % turn)]) for turn in turns]
        rows.append([calls, None if height in (2, 3, 7) else []])
    return blocks(rows)


def base58(data):
    """Bytes in base 58, with Bitcoin's alphabet."""
    letters = "123456789ABCDEFGHJKLMNPQRSTUVWXYZabcdefghijkmnopqrstuvwxyz"
    number, text = int.from_bytes(data, "big"), ""
    while number:
        number, place = divmod(number, 58)
        text = letters[place] + text
    return "1" * (len(data) - len(data.lstrip(b"\0"))) + text


def spoken_blocks():
    """A JSON text of blocks in words that `show` doesn't write: arguments as a text and as a value, a key in base 58,
    and no block hash."""
    values = {"to": ["vault", None, True, -7, {"b": 2, "a": "\u00e9"}]}
    calls = [{"FunctionCall": {"method_name": "ask", "args": args, "gas": 10_000, "deposit": "0"}}
             for args in ({"text": "\u00fcber"}, {"json": values})]
    moved = {"signer_id": "alice", "public_key": f"ed25519:{base58(KEY[1:])}", "receiver_id": "desk"}
    rows = [[{**moved, "nonce": turn + 1, "actions": [action]} for turn, action in enumerate(calls)], []]
    blocks = [{"height": height, "timestamp": height, "chunks": rows if height == 1 else [[], []]}
              for height in range(1, 6)]
    return json.dumps({"blocks": blocks}).encode()


def example_code():
    """The code of examples/contract."""
    entries = json.loads(bytes_of("contract", "genesis.json"))["entries"]
    return bytes.fromhex(next(entry["code"] for entry in entries if entry["kind"] == "code"))


def people(code):
    """A genesis of two shards in which `desk` and `vault` have the code, with keys of each kind and data."""
    limited = for_calls(10**9, b"desk", [b"ask", b"done"])
    return genesis([b"mm"], {
        b"alice": (10**15, None, [(KEY, FOR_ALL), (LONG_KEY, limited)], [(b"k", b"value"), (b"key", b"")]),
        b"desk": (10**12, code, [], [(b"", b"x" * 40)]),
        b"registrar": (10**12, None, [(KEY, FOR_ALL)], []),
        b"vault": (10**12, code, [(LONG_KEY, for_calls(None, b"vault", []))], []),
    })


def acting():
    """Transactions with each action but staking and the deletion of an account, over the genesis of `people`."""
    made = [b"\0", b"\3" + u128(10**9), b"\5" + KEY + u64(0) + FOR_ALL, b"\1" + counted(example_code())]
    for_ask = b"\5" + b"\0" + b"\3" * 32 + u64(1) + for_calls(5, b"desk", [b"ask"])
    return [
        transaction(1, b"desk", [call(b"ask", b"hello"), call(b"put", b"again", 5_000, 7)]),
        transaction(2, b"new.alice", made),
        transaction(3, b"ab" * 32, [b"\3" + u128(5)]),
        transaction(4, b"alice", [for_ask, b"\6" + LONG_KEY]),
        transaction(5, b"nobody", [b"\3" + u128(1)]),
    ]


def every_action():
    """Transactions with each action but staking, over the genesis of `people`."""
    last = [transaction(6, b"registrar", [b"\7" + counted(b"alice")]), transaction(6, b"vault", [call(b"put")])]
    rows = [[acting(), []], [[], None], [last, []], [None, []], [[], []], [[], []]]
    return blocks(rows, prices=[100, 100, 50, 120, 100, 0])


def resharded():
    """Transactions in two shards that become three, over the genesis of `people`. Under `busy_config` lists are carried
    over the change, delayed receipts move to other shards, and behind it receipts wait for data."""
    calls = [transaction(turn, b"desk", [call(b"ask", b"text %d" % turn)]) for turn in (6, 7, 8)]
    rows = [[acting(), []], [calls, []], [[], []], [[], [], []], [[], None, []], [[], [], []], [[], [], []]]
    return blocks(rows, prices=[100, 100, 50, 120, 100, 0, 100], change=(4, [b"cc", b"pp"]))


def busy_config(**changes):
    """The configuration `generated` with chunks that end early, so that receipts are delayed, and short calls."""
    values = json.loads(bytes_of("config", "generated.json"))
    return json.dumps({**values, "chunk_gas_limit": 900, "max_prepaid_gas": 200_000, **changes}).encode()
