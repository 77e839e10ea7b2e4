"""Mistakes in what is told of two images.

The names of all of them begin with "pair", so that they can be tried alone.
"""

from mistake import Mistake

# pair.py
READ = """\
        stores = store_of_file(first), store_of_file(second)
        right_bench = bench_of_file(bench)
    except NotRun as refused:
        return Pair(refused.answer)
    fill = right_bench.fill
    chips = Chip(stores[0], fill, statistics), Chip(stores[1], fill, Counter())
    found = difference_of_images(chips)
    if found is not None:
        return Pair(Answer(found, "", DIFFER))
"""
FILES = """\
        stores = store_of_file(first), store_of_file(second)
        right_bench = bench_of_file(bench)
"""
CHIPS = "    chips = Chip(stores[0], fill, statistics), Chip(stores[1], fill, Counter())\n"
FOUND = "    if found is not None:\n        return Pair(Answer(found, \"\", DIFFER))\n"
SEALS = """\
    if second.encapsulation.kept != seal:
        return "differ seal\\n"
"""
OUTSIDE = """\
    at = first_difference_outside(first.memory.store, second.memory.store, seal)
    return None if at is None else f"differ outside {at:05X}\\n"
"""
ADDRESSES = "    for at in range(STORED_BYTES):\n"
DIFFERS_OUTSIDE = """\
        if first[at] != second[at] and is_fram(at) and at // BYTES_OF_A_ROW not in seal:
"""
BOTH = """\
        first, second = (
            chip.tick(events.get(tick, []), schedule.at(tick)) for chip in chips
        )
"""
ITEMS = "        if chips[0].items != chips[1].items:\n"
DIFFER_TEXT = """\
            text = "".join(traced) + f"differ release {tick}\\n"
            return Pair(Answer(text, "", DIFFER), tick + 1)
"""
TRACED = "        traced += first\n"
SAME_TEXT = """\
    text = "".join(traced) + trace.end(bench.end) + SAME
    return Pair(Answer(text, "", DONE), bench.end)
"""


def in_pair(name: str, right: str, wrong: str, unseen_because: str = "") -> Mistake:
    return Mistake(f"pair {name}", "pair.py", right, wrong, unseen_because, of_pairs=True)


def items_as(name: str, what: str) -> Mistake:
    """The items of a tick are compared by an expression of `each`, the chip's list of items."""
    return in_pair(
        f"compares items {name}", ITEMS,
        f"        told = [{what} for each in (chips[0].items, chips[1].items)]\n"
        "        if told[0] != told[1]:\n",
    )


def without_items(name: str, kinds: str) -> Mistake:
    return items_as(f"without {name}",
                    f"[item for item in each if type(item).__name__ not in {kinds}]")


def outside_but(name: str, test: str) -> Mistake:
    return in_pair(f"leaves out {name} outside", DIFFERS_OUTSIDE,
                   DIFFERS_OUTSIDE.replace("is_fram(at)", f"is_fram(at) and not ({test})"))


IMAGES = (
    in_pair("doesn't compare seals", SEALS, ""),
    in_pair("compares seals behind what is outside", SEALS + OUTSIDE,
            OUTSIDE.replace("    return None if at is None else", "    if at is not None:\n"
                            "        return")
            + SEALS + "    return None\n"),
    in_pair("compares seals by their registers", SEALS,
            "    from boot import borders_of_image\n"
            "    borders = [borders_of_image(chip.memory.store) for chip in chips]\n"
            "    if borders[0] != borders[1]:\n        return \"differ seal\\n\"\n"),
    in_pair("compares seals by their borders", SEALS,
            "    from boot import borders_of_image\n"
            "    borders = [borders_of_image(chip.memory.store) for chip in chips]\n"
            "    if [(each.first, each.second) for each in borders[:1]] != [\n"
            "            (each.first, each.second) for each in borders[1:]]:\n"
            "        return \"differ seal\\n\"\n"),
    in_pair("compares seals by how large they are", SEALS,
            SEALS.replace("second.encapsulation.kept != seal",
                          "len(second.encapsulation.kept) != len(seal)")),
    in_pair("compares seals by where they begin", SEALS,
            SEALS.replace("second.encapsulation.kept != seal",
                          "min(second.encapsulation.kept, default=0) != min(seal, default=0)")),
    in_pair("takes a seal within the first one's for the same", SEALS,
            SEALS.replace("second.encapsulation.kept != seal",
                          "not second.encapsulation.kept <= seal")),
    in_pair("takes a seal about the first one's for the same", SEALS,
            SEALS.replace("second.encapsulation.kept != seal",
                          "not second.encapsulation.kept >= seal")),
    in_pair("doesn't compare what is outside", OUTSIDE, "    return None\n"),
    in_pair("tells the greatest address outside", ADDRESSES,
            ADDRESSES.replace("range(STORED_BYTES)", "reversed(range(STORED_BYTES))")),
    in_pair("compares what is inside too", DIFFERS_OUTSIDE,
            DIFFERS_OUTSIDE.replace(" and at // BYTES_OF_A_ROW not in seal", "")),
    in_pair("compares the first row of the seal", DIFFERS_OUTSIDE,
            DIFFERS_OUTSIDE.replace("not in seal", "not in seal - {min(seal, default=0)}")),
    in_pair("compares the last row of the seal", DIFFERS_OUTSIDE,
            DIFFERS_OUTSIDE.replace("not in seal", "not in seal - {max(seal, default=0)}")),
    in_pair("leaves out the row before the seal", DIFFERS_OUTSIDE,
            DIFFERS_OUTSIDE.replace("not in seal", "not in seal | {min(seal, default=0) - 1}")),
    in_pair("leaves out the row behind the seal", DIFFERS_OUTSIDE,
            DIFFERS_OUTSIDE.replace("not in seal", "not in seal | {max(seal, default=0) + 1}")),
    in_pair("takes vectors between borders for sealed", DIFFERS_OUTSIDE,
            DIFFERS_OUTSIDE.replace(" and at //",
                                    " and not (\n                "
                                    "0xFF80 <= at < 0x10000 and 0xFF7 in seal) and at //")),
    outside_but("information FRAM", "at < 0x1A00"),
    outside_but("main FRAM from 10000h on", "at >= 0x10000"),
    outside_but("the first address of main FRAM", "at == 0x4400"),
    outside_but("the last address of main FRAM", "at == 0x13FFF"),
    outside_but("the first address of information FRAM", "at == 0x1800"),
    outside_but("the last address of information FRAM", "at == 0x19FF"),
    outside_but("signatures and vectors", "0xFF80 <= at < 0x10000"),
    outside_but("odd addresses", "at % 2"),
    in_pair("tells the address of a word", "{at:05X}", "{at & ~1:05X}"),
    in_pair("tells an address in four digits", "{at:05X}", "{at:04X}"),
    in_pair("tells an address in small letters", "{at:05X}", "{at:05x}"),
)

OF_ITEMS = (
    in_pair("compares no items", ITEMS, "        if False:\n"),
    in_pair("compares the items of the first ticks alone", ITEMS,
            ITEMS.replace(":\n", " and tick < 300:\n")),
    in_pair("ends with the first items that agree", ITEMS,
            "        if chips[0].items and chips[0].items == chips[1].items:\n"
            "            text = \"\".join(traced) + trace.end(bench.end) + SAME\n"
            "            return Pair(Answer(text, \"\", DONE), bench.end)\n" + ITEMS),
    in_pair("compares no items in the tick of a cut", ITEMS,
            ITEMS.replace(":\n", " and chips[0].powered:\n")),
    in_pair("compares no items of a boot", ITEMS,
            ITEMS.replace(":\n", " and chips[0].is_booted():\n")),
    items_as("without the bytes that are opened",
             "[(type(item).__name__, item.first, len(item.content))\n"
             "                 if hasattr(item, \"content\") else item for item in each]"),
    items_as("with the first bytes alone that are opened",
             "[(item.first, item.content[:16])\n"
             "                 if hasattr(item, \"content\") else item for item in each]"),
    items_as("by their number", "len(each)"),
    items_as("by their kinds", "[type(item) for item in each]"),
    items_as("by the first of a tick", "each[:1]"),
    items_as("by the last of a tick", "each[-1:]"),
    items_as("without the values that are written",
             "[(item.at, item.size)\n"
             "                 if hasattr(item, \"value\") else item for item in each]"),
    items_as("without the registers of an exit",
             "[item.busy if hasattr(item, \"registers\") else item for item in each]"),
    items_as("with PC alone of an exit",
             "[(item.busy, item.registers[0])\n"
             "                 if hasattr(item, \"registers\") else item for item in each]"),
    items_as("with R15 left out of an exit",
             "[(item.busy, item.registers[:15])\n"
             "                 if hasattr(item, \"registers\") else item for item in each]"),
    without_items("entries", "('Entry',)"), without_items("fetches", "('Fetch',)"),
    without_items("reads", "('Read',)"), without_items("writes", "('Write',)"),
    without_items("accesses", "('Fetch', 'Read', 'Write')"), without_items("flags", "('Flags',)"),
    without_items("resets", "('Reset',)"), without_items("power", "('Power',)"),
    without_items("structures", "('Struct',)"), without_items("what is opened", "('Opened',)"),
    without_items("exits", "('Exit',)"),
)

RUNS = (
    in_pair("runs the first image twice", CHIPS, CHIPS.replace("stores[1]", "stores[0]")),
    in_pair("fills the second SRAM with 0", CHIPS,
            CHIPS.replace("stores[1], fill", "stores[1], 0")),
    in_pair("runs the second image without events", BOTH,
            BOTH.replace("events.get(tick, [])",
                         "events.get(tick, []) if chip is chips[0] else []")),
    in_pair("runs the second image without cuts", BOTH,
            BOTH.replace("schedule.at(tick)", "(schedule if chip is chips[0] "
                         "else Schedule([])).at(tick)")),
    in_pair("runs both without cuts", BOTH,
            BOTH.replace("schedule.at(tick)", "Schedule([]).at(tick)")),
    in_pair("runs the second image a tick behind", BOTH,
            "        first = chips[0].tick(events.get(tick, []), schedule.at(tick))\n"
            "        second = first if tick == 0 else chips[1].tick(\n"
            "            events.get(tick - 1, []), schedule.at(tick - 1))\n"),
    in_pair("doesn't run what is equal", FOUND,
            FOUND + "    if stores[0] == stores[1]:\n"
            "        return Pair(Answer(SAME, \"\", DONE))\n"),
    in_pair("gives equal images no trace but END", FOUND,
            FOUND + "    if stores[0] == stores[1]:\n"
            "        return Pair(Answer(trace.end(right_bench.end) + SAME, \"\", DONE))\n"),
)

TEXTS = (
    in_pair("writes the lines of the tick that differs", DIFFER_TEXT,
            TRACED.replace("  traced", "      traced") + DIFFER_TEXT),
    in_pair("leaves out the lines of the last tick that agrees", TRACED,
            "        traced += getattr(chips[0], \"late\", [])\n        chips[0].late = first\n"),
    in_pair("leaves out the lines of the tick before the one that differs", DIFFER_TEXT,
            "            traced = [line for line in traced if line.split()[0] != str(tick - 1)]\n"
            + DIFFER_TEXT),
    in_pair("writes no lines where items differ", DIFFER_TEXT,
            DIFFER_TEXT.replace("\"\".join(traced) + ", "")),
    in_pair("writes the lines of both runs", TRACED, "        traced += first + second\n"),
    in_pair("writes the lines of the second image", TRACED, "        traced += second\n",
            "up to there both runs have the same lines"),
    in_pair("writes the release list", TRACED,
            "        import items\n        traced += items.lines(tick, chips[0].items)\n"),
    in_pair("tells the tick before the one that differs", DIFFER_TEXT,
            DIFFER_TEXT.replace("release {tick}", "release {tick - 1}")),
    in_pair("tells the tick behind the one that differs", DIFFER_TEXT,
            DIFFER_TEXT.replace("release {tick}", "release {tick + 1}")),
    in_pair("writes END where items differ", DIFFER_TEXT,
            DIFFER_TEXT.replace("f\"differ", "trace.end(bench.end) + f\"differ")),
    in_pair("writes the tick before its last line", DIFFER_TEXT,
            DIFFER_TEXT.replace("f\"differ release {tick}", "f\"{tick} differ release")),
    in_pair("leaves out END", SAME_TEXT, SAME_TEXT.replace("trace.end(bench.end) + ", "")),
    in_pair("writes END behind same", SAME_TEXT,
            SAME_TEXT.replace("trace.end(bench.end) + SAME", "SAME + trace.end(bench.end)")),
    in_pair("leaves out same", SAME_TEXT, SAME_TEXT.replace(" + SAME", "")),
    in_pair("writes the tick before same", SAME_TEXT,
            SAME_TEXT.replace(" + SAME", " + f\"{bench.end} \" + SAME")),
    in_pair("ends same without a line feed", "SAME = \"same\\n\"", "SAME = \"same\""),
    in_pair("ends its last line without a line feed", DIFFER_TEXT,
            DIFFER_TEXT.replace("{tick}\\n", "{tick}")),
)

ANSWERS = (
    in_pair("ends with 0 where items differ", DIFFER_TEXT, DIFFER_TEXT.replace("DIFFER", "DONE")),
    in_pair("ends with 0 where images differ", FOUND, FOUND.replace("DIFFER", "DONE")),
    in_pair("ends with 1 where nothing differs", SAME_TEXT, SAME_TEXT.replace("DONE", "DIFFER")),
    in_pair("ends with 2 where something differs", "DONE, DIFFER = 0, 1", "DONE, DIFFER = 0, 2"),
    in_pair("writes what differs to standard error", FOUND,
            FOUND.replace("found, \"\"", "\"\", found")),
    in_pair("reads the second image first", FILES,
            FILES.replace("store_of_file(first), store_of_file(second)",
                          "(store_of_file(second), store_of_file(first))[::-1]")),
    in_pair("reads the bench first", FILES, "".join(FILES.splitlines(keepends=True)[::-1])),
    in_pair("reads the bench before the second image", FILES,
            "        one = store_of_file(first)\n        right_bench = bench_of_file(bench)\n"
            "        stores = one, store_of_file(second)\n"),
    in_pair("compares images before it reads the bench", READ,
            "        stores = store_of_file(first), store_of_file(second)\n"
            "        chips = [Chip(store, 0, Counter()) for store in stores]\n"
            "        found = difference_of_images(chips)\n"
            "        if found is not None:\n"
            "            return Pair(Answer(found, \"\", DIFFER))\n"
            "        right_bench = bench_of_file(bench)\n"
            "    except NotRun as refused:\n        return Pair(refused.answer)\n"
            "    fill = right_bench.fill\n" + CHIPS),
    in_pair("takes a refused second image for the first one", FILES,
            "        stores = [store_of_file(first)]\n        try:\n"
            "            stores.append(store_of_file(second))\n        except NotRun:\n"
            "            stores.append(stores[0])\n        right_bench = bench_of_file(bench)\n"),
    in_pair("refuses one name twice", READ,
            "        if first == second:\n            raise NotRun(Answer(\"\", \"usage\", 2))\n"
            + READ),
)

MISTAKES = (*IMAGES, *OF_ITEMS, *RUNS, *TEXTS, *ANSWERS)
