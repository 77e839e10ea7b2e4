"""A bench as a value, read from and written as TOML (BENCH.md)."""

import tomllib
from dataclasses import dataclass, field

from debug import (
    Command, Dump, Erase, Go, Halt, ReadRegister, ReadWord, Reset, SetRegister, WriteWord,
)
from ports import Pin
from power import Cut

VERSION = 1
LONGEST_END = 10_000_000
EVENTS = 10_000
EVENTS_IN_A_TICK = 8
CUTS = 1_000
MOST_WRITES = 64
LONGEST_OFF = 10_000_000
ROOT_KEYS = {"version", "end", "fill", "event", "cut"}
PINS = {Pin(port, bit).name(): Pin(port, bit) for port in range(1, 5) for bit in range(8)}

ADDRESS = ("at", 0, 0xFFFFF)
REGISTER = ("reg", 0, 15)
WORD = ("value", 0, 0xFFFF)
VALUE_OF_REGISTER = ("value", 0, 0xFFFFF)
# By the name of a command: what makes it, and from which keys with their ranges.
COMMANDS = {
    "read": (ReadWord, (ADDRESS,)),
    "write": (WriteWord, (ADDRESS, WORD)),
    "dump": (Dump, (ADDRESS, ("count", 1, 32))),
    "reg": (ReadRegister, (REGISTER,)),
    "setreg": (SetRegister, (REGISTER, VALUE_OF_REGISTER)),
    "halt": (Halt, ()),
    "go": (Go, ()),
    "reset": (Reset, ()),
    "erase": (Erase, ()),
}


class Refused(Exception):
    """The file is no bench; the text tells the row of the table."""


@dataclass(frozen=True)
class PinLevel:
    pin: Pin
    level: int


@dataclass(frozen=True)
class Event:
    tick: int
    act: PinLevel | Command


@dataclass
class Bench:
    end: int = 1000
    fill: int = 0
    events: list[Event] = field(default_factory=list)
    cuts: list[Cut] = field(default_factory=list)

    def events_of_ticks(self) -> dict[int, list[Event]]:
        ticks: dict[int, list[Event]] = {}
        for event in self.events:
            ticks.setdefault(event.tick, []).append(event)
        return ticks


# Writing

def bench_text(bench: Bench) -> str:
    lines = [f"version = {VERSION}", f"end = {bench.end}", f"fill = {bench.fill}"]
    for event in bench.events:
        lines += ["", "[[event]]", f"tick = {event.tick}", *lines_of_act(event.act)]
    for cut in bench.cuts:
        lines += ["", "[[cut]]", f"tick = {cut.tick}", f"writes = {cut.writes}", f"off = {cut.off}"]
    return "\n".join(lines) + "\n"


def lines_of_act(act: PinLevel | Command) -> list[str]:
    if isinstance(act, PinLevel):
        return [f'pin = "{act.pin.name()}"', f"level = {act.level}"]
    for name, (maker, keys) in COMMANDS.items():
        if isinstance(act, maker):
            values = vars(act).values()
            pairs = [f"{key} = {value}" for (key, _, _), value in zip(keys, values)]
            return [f'debug = "{name}"', *pairs]
    raise TypeError(act)


# Reading

def is_integer(value, least: int, most: int) -> bool:
    return type(value) is int and least <= value <= most


def bench_of_text(file: bytes) -> Bench:
    """The bench of a file, or Refused."""
    try:
        root = tomllib.loads(file.decode("utf-8"))
    except ValueError as error:
        raise Refused("NotToml") from error
    if not is_integer(root.get("version"), VERSION, VERSION):
        raise Refused("Field(Version)")
    if not is_integer(root.get("end"), 1, LONGEST_END):
        raise Refused("Field(End)")
    if not is_integer(root.get("fill", 0), 0, 255):
        raise Refused("Field(Fill)")
    events, cuts = root.get("event", []), root.get("cut", [])
    for name, tables in (("Event", events), ("Cut", cuts)):
        if not isinstance(tables, list):
            raise Refused(f"Field({name})")
    if set(root) - ROOT_KEYS:
        raise Refused("Field(Unknown)")
    for tables, most in ((events, EVENTS), (cuts, CUTS)):
        if len(tables) > most:
            raise Refused(f"TooMany({len(tables)})")
    bench = Bench(root["end"], root.get("fill", 0))
    for index, table in enumerate(events):
        add_event(bench, table, f"Event({index})")
    for index, table in enumerate(cuts):
        add_cut(bench, table, f"Cut({index})")
    return bench


def add_event(bench: Bench, table, refusal: str) -> None:
    if not isinstance(table, dict):
        raise Refused(refusal)
    keys = dict(table)
    tick = keys.pop("tick", None)
    earlier = bench.events
    least_tick = earlier[-1].tick if earlier else 0
    if not is_integer(tick, least_tick, bench.end - 1):
        raise Refused(refusal)
    if sum(event.tick == tick for event in earlier[-EVENTS_IN_A_TICK:]) == EVENTS_IN_A_TICK:
        raise Refused(refusal)
    act = pin_level(keys)
    if act is None:
        act = command(keys)
    if act is None:
        raise Refused(refusal)
    bench.events.append(Event(tick, act))


def add_cut(bench: Bench, table, refusal: str) -> None:
    """A cut comes behind the ticks that the cut before left without power."""
    if not isinstance(table, dict) or set(table) != {"tick", "writes", "off"}:
        raise Refused(refusal)
    cut = Cut(table["tick"], table["writes"], table["off"])
    last_off = bench.cuts[-1].tick + bench.cuts[-1].off if bench.cuts else -1
    right = (
        is_integer(cut.tick, last_off + 1, bench.end - 1)
        and is_integer(cut.writes, 0, MOST_WRITES)
        and is_integer(cut.off, 1, LONGEST_OFF)
    )
    if not right:
        raise Refused(refusal)
    bench.cuts.append(cut)


def pin_level(keys: dict) -> PinLevel | None:
    """What the keys of an event besides its tick say, where it is about a pin."""
    right = (
        set(keys) == {"pin", "level"}
        and isinstance(keys["pin"], str)
        and keys["pin"] in PINS
        and is_integer(keys["level"], 0, 1)
    )
    return PinLevel(PINS[keys["pin"]], keys["level"]) if right else None


def command(keys: dict) -> Command | None:
    """The same, where it is about the debug port."""
    keys = dict(keys)
    name = keys.pop("debug", None)
    if not isinstance(name, str) or name not in COMMANDS:
        return None
    maker, needed = COMMANDS[name]
    if set(keys) != {key for key, _, _ in needed}:
        return None
    if not all(is_integer(keys[key], least, most) for key, least, most in needed):
        return None
    return maker(*(keys[key] for key, _, _ in needed))
