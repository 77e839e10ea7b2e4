"""The text that tells what the cases of a comparison saw."""

from collections import Counter

WIDTH = 100


def report(kinds: Counter, statistics: Counter) -> str:
    lines = [f"cases: {kinds.total()} ({listed(kinds)})"]
    for name in ("ticks", "ticks asleep", "watchdog intervals", "PIN lines", "dead ends"):
        lines.append(f"{name}: {statistics[name]}")
    lines.append(f"exit numbers: {listed(starting(statistics, 'exit '))}")
    forms = starting(statistics, "form ")
    lines.append(f"instructions: {forms.total()}, by form: {listed(forms)}")
    entries = starting(statistics, "entry ")
    lines.append(f"entries: {entries.total()}, by vector: {listed(entries)}")
    resets = starting(statistics, "reset ")
    lines.append(f"resets: {resets.total()}, by cause: {listed(resets)}")
    lines += timer_lines(starting(statistics, "timer "))
    lines += dma_lines(starting(statistics, "dma "))
    lines.append(f"interrupts of DMA: {entries['FFE4']}")
    lines += protection_lines(statistics)
    lines += debug_lines(statistics)
    lines += power_lines(statistics)
    lines += release_lines(statistics)
    lines += pair_lines(statistics)
    return "\n".join(wrapped(line) for line in lines) + "\n"


def timer_lines(timers: Counter) -> list[str]:
    steps, flags = Counter(), Counter()
    for name, number in timers.items():
        if "step of" in name:
            steps[name.split("step of ")[1]] += number
        else:
            flags[name] += number
    return [
        f"timer steps by mode: {listed(steps)}",
        f"flags that timers set: {listed(flags)}",
    ]


def dma_lines(dma: Counter) -> list[str]:
    transfers, widths, others = Counter(), Counter(), Counter()
    for name, number in dma.items():
        channel, what = name.split(": ")
        if what.startswith("transfer of "):
            transfers[f"{what.removeprefix('transfer of ')} by channel {channel}"] += number
        elif what.startswith("transfer "):
            widths[what.removeprefix("transfer ")] += number
        else:
            others[what] += number
    return [
        f"transfers of DMA: {transfers.total()}, by mode and channel: {listed(transfers)}",
        f"transfers by their widths: {listed(widths)}",
        f"what else DMA did: {listed(others)}",
    ]


def protection_lines(statistics: Counter) -> list[str]:
    violations, others = Counter(), Counter()
    for name, number in starting(statistics, "protection: ").items():
        (violations if "'s " in name else others)[name] += number
    waits = starting(statistics, "waits with ")
    return [
        f"accesses that were refused: {violations.total()}, by kind and place: "
        f"{listed(violations)}",
        f"what else protection did: {listed(others)}",
        f"NMIs: {statistics['entry FFFC']} ({listed(starting(statistics, 'nmi '))})",
        f"waits: {waits.total()}, {listed(waits)}",
    ]


def debug_lines(statistics: Counter) -> list[str]:
    commands = starting(statistics, "debug ")
    halts = starting(statistics, "halt ")
    return [
        f"commands of the debug port: {commands.total()}, by command and answer: "
        f"{listed(commands)}",
        f"halts: {halts.total()}, by what they met: {listed(halts)}",
        f"ticks in which a halt waited for the way out of the seal: "
        f"{statistics['ticks that a halt waits in the seal']}",
    ]


def power_lines(statistics: Counter) -> list[str]:
    cuts = starting(statistics, "cut ")
    return [
        f"boots, and what they found: {listed(starting(statistics, 'boot: '))}",
        f"cuts: {cuts.total() - cuts['in private phase']}, by where they came: {listed(cuts)}",
        f"writes in the tick of a cut, whole: {listed(starting(statistics, 'whole in a cut: '))}",
        f"and absent: {listed(starting(statistics, 'absent in a cut: '))}",
    ]


def release_lines(statistics: Counter) -> list[str]:
    items = starting(statistics, "item ")
    return [
        f"release lists that were asked for: {statistics['releases']}",
        f"items: {items.total()}, by kind: {listed(items)}",
    ]


def pair_lines(statistics: Counter) -> list[str]:
    ends = starting(statistics, "pair of ")
    return [
        f"pairs that were asked for: {statistics['pairs']}",
        f"ticks of which both runs were compared: {statistics['ticks of pairs']}",
        f"their exit numbers: {listed(starting(statistics, 'exit of a pair '))}",
        f"by what they differ in, and what was answered: {listed(ends)}",
    ]


def starting(statistics: Counter, prefix: str) -> Counter:
    return Counter({
        name.removeprefix(prefix): number
        for name, number in statistics.items() if name.startswith(prefix)
    })


def listed(counter: Counter) -> str:
    return ", ".join(f"{name} {counter[name]}" for name in sorted(counter)) or "none"


def wrapped(line: str) -> str:
    """A long line as several, of which those behind the first are indented."""
    lines = [""]
    for part in line.split(", "):
        if lines[-1] and len(lines[-1]) + len(part) > WIDTH - 2:
            lines.append("    ")
        lines[-1] += part + ", "
    return "\n".join(lines).replace(", \n", ",\n").removesuffix(", ")
