"""Makes a case that differs smaller, as long as it differs."""

from collections.abc import Callable
from dataclasses import replace

from assembler import NOP
from bench import Bench
from cases import Case
from image import Segment
from pair_cases import PairCase

Differs = Callable[[Case], bool]
PairDiffers = Callable[[PairCase], bool]

NOP_BYTES = NOP.to_bytes(2, "little")
LONGEST_RUN = 64  # as many words are replaced at once, at first


def shrunk(
    case: Case | PairCase, differs: Differs | PairDiffers, tick: int | None
) -> Case | PairCase:
    """The smaller case. `tick` is that of the first line that differs, where it is known."""
    if isinstance(case, PairCase):
        return shrunk_pair(case, differs, tick)
    return shrunk_case(case, differs, tick)


def shrunk_pair(pair: PairCase, differs: PairDiffers, tick: int | None) -> PairCase:
    """What the second image has besides becomes less too."""
    pair = fewer_changes(pair, differs)
    case = shrunk_case(pair.case, lambda case: differs(replace(pair, case=case)), tick)
    return fewer_changes(replace(pair, case=case), differs)


def fewer_changes(pair: PairCase, differs: PairDiffers) -> PairCase:
    size = max(1, len(pair.changes) // 2)
    while size:
        first = 0
        while first < len(pair.changes):
            fewer = replace(pair, changes=pair.changes[:first] + pair.changes[first + size:])
            if differs(fewer):
                pair = fewer
            else:
                first += size
        size //= 2
    return pair


def shrunk_case(case: Case, differs: Differs, tick: int | None) -> Case:
    if case.refused_image is not None or case.refused_bench is not None:
        return case
    case = with_bench(case, differs)
    case = fewer_ticks(case, differs, tick)
    case = fewer_cuts(case, differs)
    case = fewer_events(case, differs)
    case = fewer_segments(case, differs)
    case = fewer_instructions(case, differs)
    return fewer_events(case, differs)


def with_bench(case: Case, differs: Differs) -> Case:
    if case.bench is None:
        named = replace(case, bench=Bench())
        return named if differs(named) else case
    return case


def ended_at(case: Case, end: int) -> Case:
    events = [event for event in case.bench.events if event.tick < end]
    cuts = [cut for cut in case.bench.cuts if cut.tick < end]
    return replace(case, bench=Bench(end, case.bench.fill, events, cuts))


def fewer_ticks(case: Case, differs: Differs, tick: int | None) -> Case:
    if case.bench is None or tick is None or not 0 <= tick < case.bench.end - 1:
        return case
    shorter = ended_at(case, tick + 1)
    return shorter if differs(shorter) else case


def fewer_cuts(case: Case, differs: Differs) -> Case:
    """Leaves out each cut that isn't needed, from the last on, since it changes the least."""
    for cut in reversed(case.bench.cuts if case.bench else []):
        cuts = [other for other in case.bench.cuts if other is not cut]
        fewer = replace(case, bench=replace(case.bench, cuts=cuts))
        if differs(fewer):
            case = fewer
    return case


def fewer_events(case: Case, differs: Differs) -> Case:
    if case.bench is None:
        return case
    size = max(1, len(case.bench.events) // 2)
    while size:
        first = 0
        while first < len(case.bench.events):
            events = case.bench.events[:first] + case.bench.events[first + size:]
            fewer = replace(case, bench=replace(case.bench, events=events))
            if differs(fewer):
                case = fewer
            else:
                first += size
        size //= 2
    return case


def fewer_segments(case: Case, differs: Differs) -> Case:
    index = 0
    while index < len(case.segments):
        fewer = replace(case, segments=case.segments[:index] + case.segments[index + 1:])
        if differs(fewer):
            case = fewer
        else:
            index += 1
    return case


def fewer_instructions(case: Case, differs: Differs) -> Case:
    """Replaces words by NOP, first long runs of them and then single ones."""
    for index, segment in enumerate(case.segments):
        if len(segment.data) <= 2:
            continue  # a vector
        size = LONGEST_RUN
        while size:
            case = fewer_in_segment(case, differs, index, size)
            size //= 2
    return case


def fewer_in_segment(case: Case, differs: Differs, index: int, size: int) -> Case:
    step = 2 * size
    for first in range(0, len(case.segments[index].data) - 1, step):
        data = case.segments[index].data
        nops = NOP_BYTES * (len(data[first:first + step]) // 2)
        changed = data[:first] + nops + data[first + len(nops):]
        if changed == data:
            continue
        segments = list(case.segments)
        segments[index] = Segment(segments[index].address, changed)
        fewer = replace(case, segments=segments)
        if differs(fewer):
            case = fewer
    return case
