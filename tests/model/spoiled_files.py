"""Files of which most are refused: images and benches with one thing wrong, or at an edge."""

import random
from collections.abc import Sequence

from bench import LONGEST_END
from image import HEADER

EDGES_OF_ADDRESSES = ("0", "1048575", "1048576", "-1", "0xFFFFF", "65536")
EDGES_OF_REGISTERS = ("0", "15", "16", "-1")
WRONG_COMMANDS = (
    ('debug = "read"', "at = 1048576"), ('debug = "write"', "at = 1048576", "value = 0"),
    ('debug = "write"', "at = 0", "value = 65536"), ('debug = "dump"', "at = 0", "count = 33"),
    ('debug = "dump"', "at = 0", "count = 0"), ('debug = "dump"', "at = 1048576", "count = 1"),
    ('debug = "reg"', "reg = 16"), ('debug = "setreg"', "reg = 16", "value = 0"),
    ('debug = "setreg"', "reg = 4", "value = 1048576"), ('debug = "erase"', "at = 0"),
    ('debug = "halt"', "at = 0"), ('debug = "go"', 'pin = "P1.0"', "level = 1"),
    ('debug = "read"', "at = 0", "value = 0"), ('debug = "setreg"', "reg = 4"),
)


def spoiled_image(rng: random.Random, file: bytes) -> bytes:
    changed = bytearray(file)
    kind = rng.randrange(4)
    if kind == 0:
        return file[:rng.choice((0, 4, 51, 52, 53, 84, rng.randrange(len(file)), len(file) - 1))]
    if kind == 1:
        place = rng.choice((0, 1, 3, 4, 5, 6, 7, 16, 17, 18, 19, 20, 40))
        changed[place] ^= 1 << rng.randrange(8)
    elif kind == 2:
        place = rng.randrange(HEADER.size)
        changed[place] = rng.choice((0, 1, 0xFF, rng.randrange(256)))
    else:
        place = HEADER.size + rng.randrange(64)
        changed[place] = rng.choice((0, 1, 0xFF, changed[place] ^ 1 << rng.randrange(8)))
    return bytes(changed)


def spoiled_bench(rng: random.Random, file: bytes) -> bytes:
    text = file.decode()
    if rng.random() < 0.6:
        return rng.choice((bench_of_a_command, bench_of_a_command, bench_of_cuts))(rng).encode()
    least = "version = 1\nend = 20\nfill = 5\n"
    event = '\n[[event]]\ntick = 0\npin = "P1.0"\nlevel = 1\n'
    one = least + event
    return rng.choice((
        one.replace("version = 1", rng.choice(("version = 2", "version = 1.0", "", "version"))),
        one.replace("end = ", rng.choice(("end = 0x", "end = -", "ends = ", "end = 1_0"))),
        one.replace("fill = ", rng.choice(("fill = 25", "fill = +", "full = ", "fill = 1e"))),
        one.replace("P1", rng.choice(("P0", "p1", "P5", "P2", "P1 "))),
        one.replace("level = 1", rng.choice(("level = true", "level = true", "level = 2", ""))),
        one.replace("tick = ", rng.choice(("tick = -", "tick = +", "tock = ", "tick = 9"))),
        f"version = 1\nend = {LONGEST_END + 1}\n",
        least + event * rng.choice((7, 8, 9)),
        least + event * 9,
        least + event * 3 + "extra = 1\n",
        rng.choice(("event = []\n", "event = {}\n", "event = [1]\n", "cut = []\n", "# \n")) + text,
        text + "\xff",
    )).encode(rng.choice(("utf-8", "utf-8", "latin-1")), errors="replace")


def bench_of_a_command(rng: random.Random) -> str:
    """One command with a key at the end of its range, or with one thing wrong."""
    if rng.random() < 0.5:
        return bench_of_event(rng.choice(WRONG_COMMANDS))
    keys = rng.choice((
        {"debug": '"read"', "at": rng.choice(EDGES_OF_ADDRESSES)},
        {"debug": '"write"', "at": rng.choice(EDGES_OF_ADDRESSES),
         "value": rng.choice(("0", "65535", "65536", "-1"))},
        {"debug": '"dump"', "at": rng.choice(EDGES_OF_ADDRESSES),
         "count": rng.choice(("0", "1", "32", "33"))},
        {"debug": '"reg"', "reg": rng.choice(EDGES_OF_REGISTERS)},
        {"debug": '"setreg"', "reg": rng.choice(EDGES_OF_REGISTERS),
         "value": rng.choice(EDGES_OF_ADDRESSES)},
        {"debug": rng.choice(('"halt"', '"go"', '"reset"', '"erase"', '"Halt"', '"step"', "1"))},
    ))
    chance = rng.random()
    if chance < 0.15:
        del keys[rng.choice(list(keys))]
    elif chance < 0.35:
        keys[rng.choice(("at", "value", "count", "reg", "pin", "level", "name"))] = "0"
    elif chance < 0.45:
        keys[rng.choice(list(keys))] = rng.choice(("true", "1.0", '"1"', "[]", "{}"))
    lines = [f"{key} = {value}" for key, value in keys.items()]
    rng.shuffle(lines)
    return bench_of_event(lines)


def bench_of_cuts(rng: random.Random) -> str:
    """Two cuts, each with its values at the ends of their ranges, or with one thing wrong."""
    tables = [{"tick": "1", "writes": "1", "off": "3"}]
    key, values = rng.choice((
        ("tick", ("0", "19", "20", "-1")), ("writes", ("0", "64", "65", "65", "-1")),
        ("off", ("1", "10_000_000", "10_000_001", "0", "0", "-1")),
    ))
    tables[0][key] = rng.choice(values)
    if rng.random() < 0.4:
        tables = [{"tick": "1", "writes": "64", "off": "3"}]
        tables.append({"tick": rng.choice("34567"), "writes": "0", "off": "1"})
    table = rng.choice(tables)
    chance = rng.random()
    if chance < 0.05:
        del table[rng.choice(list(table))]
    elif chance < 0.2:
        table[rng.choice(("on", "at", "level", "number"))] = "0"
    elif chance < 0.25:
        table[rng.choice(list(table))] = rng.choice(("true", "1.0", '"1"', "[]", "{}"))
    inline = [
        "{ " + ", ".join(f"{key} = {value}" for key, value in table.items()) + " }"
        for table in tables
    ]
    if rng.random() < 0.1:
        inline = [rng.choice(("1", "[]", '"cut"', "{}"))]
    if rng.random() < 0.1:
        inline = [f"{{ tick = {2 * index}, writes = 0, off = 1 }}" for index in
                  range(rng.choice((999, 1000, 1001)))]
    cuts = rng.choice((f"cut = [{', '.join(inline)}]",) * 15 + ("cut = {}", "cut = 1"))
    end = 20 if len(inline) < 3 else 2100
    return "\n".join(("version = 1", f"end = {end}", cuts)) + "\n"


def bench_of_event(lines: Sequence[str]) -> str:
    return "\n".join(("version = 1", "end = 20", "[[event]]", "tick = 9", *lines)) + "\n"
