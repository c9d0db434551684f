"""Writes the session files on which the product's reader is tried, and what it has to print.

    python3 outside/readings.py

writes crates/readings/data/readings.txt (the cases) and crates/readings/stdout
(the expected output, by the reader beside this file). The same bytes come out
at every run.

The cases are text. A line `case NAME` starts a case, whose file is empty at
first. Each further line appends to it: `t PIECE` the piece, `r COUNT PIECE` the
piece so many times. A piece runs to the end of its line and has bytes 32 to 126
only; a backslash and the byte after it stand for one byte:

    \\n line feed     \\r carriage return   \\t tab        \\\\ backslash
    \\0 byte 0        \\d byte 127          \\h byte 200   \\e space

For each case the output has the line `case NAME`, then what the reader prints
for the file if that is at most 400 bytes, otherwise a line `bytes LENGTH sum H`,
where H starts at 0 and each byte b makes it (H * 31 + b) modulo 2 to the 32.

Wherever a case is made by hand its verdict is written beside it, and compared
with the reader's: VALID, or a fault as (number, line, field).
"""

import itertools
import pathlib
import re
import sys
from collections import Counter
from typing import NamedTuple

sys.dont_write_bytecode = True
import reader  # noqa: E402  (after the switch above)

CRATE = pathlib.Path(__file__).resolve().parent.parent / "crates" / "readings"
EXAMPLES = pathlib.Path(__file__).resolve().parent.parent / "examples"
LONGEST_SHOWN = 400

VALID = "valid"
OPEN = "open"  # the verdict is left to the reader


class Case(NamedTuple):
    """A file under a name, and its verdict."""

    name: str
    data: bytes
    verdict: object


def case(name, lines, verdict):
    """A case from the lines of its file, each without its line feed."""
    return Case(name, join(lines), verdict)


def join(lines):
    """The bytes of a file with these lines."""
    return "".join(line + "\n" for line in lines).encode("latin-1")


# The file that most cases alter.

BASE = [
    "nodes root kind detector channel",  # line 1
    "4 0 cost tree queue",
    "from to cost width",
    "0 1 5 10",  # line 4
    "0 2 1 4",
    "2 1 2 8",
    "1 3 1 6",
    "step pick",  # line 8
    "deliver 0",
    "work 2",  # line 10
    "control 1",
]
VALUES, LINK_NAMES, LINK, LAST_LINK, STEP_NAMES, STEP = 2, 3, 5, 7, 8, 10

LINES_OF_EACH_SORT = {
    "setting-names": 1,
    "settings": VALUES,
    "link-names": LINK_NAMES,
    "link": LINK,
    "step-names": STEP_NAMES,
    "step": STEP,
}


def altered(changes):
    """The base with some lines replaced, by number from 1."""
    return [changes.get(number, line) for number, line in enumerate(BASE, start=1)]


def with_line(number, text):
    """The base with one line replaced."""
    return altered({number: text})


def with_link(order, text, nodes=4):
    """A file in which the links have a column order and line 4 is the only link."""
    return [BASE[0], f"{nodes} 0 cost tree queue", order, text, "step pick"]


def with_settings(order, text):
    """A file in which the settings have a column order, without links and steps."""
    return [order, text, "from to cost width", "step pick"]


def with_step(order, text):
    """A file in which the steps have a column order and line 5 is the only step."""
    return [BASE[0], BASE[1], "from to cost width", order, text]


def in_order(order, row):
    """The values of a row in a column order."""
    return " ".join(row[name] for name in order)


# Layout: fault 2 wherever it occurs.


def layout_cases():
    """Broken layout on every sort of line."""
    for sort, number in LINES_OF_EACH_SORT.items():
        line = BASE[number - 1]
        first, rest = line.split(" ", 1)
        last = line.rsplit(" ", 1)[1]
        broken = {
            "leading-space": " " + line,
            "trailing-space": line + " ",
            "double-space": first + "  " + rest,
            "leading-tab": "\t" + line,
            "trailing-tab": line + "\t",
            "tab-between": first + "\t" + rest,
            "carriage-return": line + "\r",
            "carriage-return-first": "\r" + line,
            "byte-0": first + "\0 " + rest,
            "byte-0-first": "\0" + line,
            "byte-127": first + "\x7f " + rest,
            "byte-127-first": "\x7f" + line,
            "byte-200": first + "\xc8 " + rest,
            "byte-200-last": line + "\xc8",
            "empty": "",
            "one-space": " ",
            "spaces-only": "    ",
            "field-more": line + " " + last,
            "field-fewer": line.rsplit(" ", 1)[0],
            "joined": line.replace(" ", ""),
        }
        for what, text in broken.items():
            yield case(f"layout-{sort}-{what}", with_line(number, text), (2, number, 0))
        before, after = BASE[: number - 1], BASE[number - 1 :]
        lines = before + [""] + after
        yield case(f"layout-{sort}-after-empty-line", lines, (2, number, 0))
        cut = {"no-line-feed": line, "cut": line[:1], "cut-at-space": first + " "}
        for what, text in cut.items():
            data = join(before) + text.encode()
            yield Case(f"layout-{sort}-{what}", data, (2, number, 0))

    yield Case("layout-last-line-no-line-feed", join(BASE)[:-1], (2, len(BASE), 0))
    yield case("layout-carriage-returns-everywhere", [line + "\r" for line in BASE], (2, 1, 0))
    data = join(BASE).replace(b"\n", b"\r")
    yield Case("layout-carriage-returns-for-line-feeds", data, (2, 1, 0))
    yield case("layout-first-link-leading-space", with_line(4, " 0 1 5 10"), (2, 4, 0))
    yield case("layout-first-link-empty", with_line(4, ""), (2, 4, 0))
    yield case("layout-first-link-field-fewer", with_line(4, "0 1 5"), (2, 4, 0))
    yield Case("layout-one-line-feed", b"\n", (2, 1, 0))
    yield Case("layout-one-byte", b"n", (2, 1, 0))
    yield Case("layout-one-digit", b"0", (2, 1, 0))
    yield Case("layout-one-space", b" ", (2, 1, 0))
    yield Case("layout-one-byte-0", b"\0", (2, 1, 0))
    yield case("layout-empty-line-at-end", BASE + [""], (2, 12, 0))
    yield case("layout-two-empty-lines-at-end", BASE + ["", ""], (2, 12, 0))
    yield Case("layout-byte-0-at-end", join(BASE) + b"\0", (2, 12, 0))
    yield Case("layout-space-at-end", join(BASE) + b" ", (2, 12, 0))
    yield case("layout-least-and-greatest-field-bytes", with_line(STEP, "!~ 0"), (4, STEP, 1))
    yield case("layout-field-of-byte-33", with_line(STEP, "work !"), (4, STEP, 2))
    yield case("layout-field-of-byte-126", with_line(STEP, "work ~"), (4, STEP, 2))
    yield case("layout-names-of-bytes-33-and-126", with_line(STEP_NAMES, "! ~"), (3, STEP_NAMES, 0))
    yield case("layout-backslash-field", with_line(STEP, "work \\"), (4, STEP, 2))


# Names: fault 3, and every order that is right.


def order_cases():
    """Column orders that are accepted."""
    row = {"from": "0", "to": "3", "cost": "7", "width": "9"}
    for order in itertools.permutations(row):
        lines = with_link(" ".join(order), in_order(order, row))
        yield case("order-links-" + "-".join(order), lines, VALID)

    row = {"nodes": "9", "root": "8", "kind": "width", "detector": "credit", "channel": "picked"}
    for order in itertools.permutations(row):
        lines = with_settings(" ".join(order), in_order(order, row))
        yield case("order-settings-" + "-".join(order), lines, VALID)

    for step in ("deliver", "work", "control"):
        yield case(f"order-steps-step-pick-{step}", with_step("step pick", f"{step} 12"), VALID)
        yield case(f"order-steps-pick-step-{step}", with_step("pick step", f"12 {step}"), VALID)
    unheeded = with_step("pick step", "deliver 12")
    yield case("order-steps-pick-step-unheeded", unheeded, (4, 5, 1))
    yield case(
        "order-all-reversed",
        [
            "channel detector kind root nodes",
            "stack credit width 3 4",
            "width cost to from",
            "10 5 1 0",
            "4 1 0 3",
            "pick step",
            "65535 deliver",
            "0 control",
        ],
        VALID,
    )


def names_cases():
    """Names lines that are not the table's."""
    for sort, number in (("setting", 1), ("link", LINK_NAMES), ("step", STEP_NAMES)):
        names = BASE[number - 1].split(" ")
        for place, name in enumerate(names):
            others = names[:place], names[place + 1 :]
            wrong = {
                "capital": name.capitalize(),
                "longer": name + "s",
                "shorter": name[:-1],
                "misspelt": name[:1] + "z" + name[2:],
                "replaced-by-another": names[place - 1],
            }
            for what, text in wrong.items():
                line = " ".join([*others[0], text, *others[1]])
                yield case(f"names-{sort}-{name}-{what}", with_line(number, line), (3, number, 0))
            missing = " ".join(others[0] + others[1])
            yield case(f"names-{sort}-{name}-missing", with_line(number, missing), (2, number, 0))
            twice = " ".join([*names[: place + 1], *names[place:]])
            yield case(f"names-{sort}-{name}-twice", with_line(number, twice), (2, number, 0))
        more = " ".join(names) + " speed"
        yield case(f"names-{sort}-one-too-many", with_line(number, more), (2, number, 0))
        capitals = " ".join(names).upper()
        yield case(f"names-{sort}-all-capitals", with_line(number, capitals), (3, number, 0))
        same = " ".join([names[0]] * len(names))
        yield case(f"names-{sort}-all-the-same", with_line(number, same), (3, number, 0))
        without = BASE[: number - 1] + BASE[number:]
        # Its first line of values is then read as names.
        yield case(f"names-{sort}-line-missing", without, (3, number, 0))
        twice = BASE[:number] + BASE[number - 1 :]
        # The second is read as values, as step names that are too many, or as a step.
        verdict = {"setting": (4, 2, 1), "link": (2, 4, 0), "step": (4, 9, 1)}[sort]
        yield case(f"names-{sort}-line-twice", twice, verdict)

    yield case("names-links-first", BASE[2:8] + BASE[:2], (2, 1, 0))
    yield case("names-steps-first", BASE[7:] + BASE[:7], (2, 1, 0))
    yield case("names-settings-again-for-links", with_line(LINK_NAMES, BASE[0]), (2, 3, 0))
    yield case("names-link-names-again-for-steps", with_line(STEP_NAMES, BASE[2]), (2, 8, 0))
    yield case("names-two-link-names-for-steps", with_line(STEP_NAMES, "from to"), (3, 8, 0))
    yield case("names-link-line-with-letter-first", with_line(LINK, "x0 2 1 4"), (2, 5, 0))
    yield case("names-two-fields-among-links", with_line(LINK, "a b"), (3, 5, 0))
    yield case("names-steps-too-early", with_line(LINK, "step pick"), (2, 6, 0))
    yield case("names-two-digits-first-among-links", with_line(LINK, "0 1"), (2, 5, 0))
    for what, text, verdict in (
        ("digit-joined", "0step pick", (2, 8, 0)),
        ("nine-joined", "9step pick", (2, 8, 0)),
        ("digit-first", "0 step", (2, 8, 0)),
        ("digit-first-four-fields", "0 step pick x", (4, 8, 2)),
        ("plus-digit", "+1 pick", (3, 8, 0)),
        ("minus-digit", "-1 pick", (3, 8, 0)),
        ("point-digit", ".5 pick", (3, 8, 0)),
        ("slash", "/ pick", (3, 8, 0)),
        ("colon", ": pick", (3, 8, 0)),
        ("letter-o", "o pick", (3, 8, 0)),
        ("minus-digit-four-fields", "-1 0 5 10", (2, 8, 0)),
        ("minus-link", "- 0 5 10", (2, 8, 0)),
    ):
        yield case(f"names-step-line-{what}", with_line(STEP_NAMES, text), verdict)


# The end of the file: fault 8.


def end_cases():
    """Files that end after each line."""
    for count in range(len(BASE) + 1):
        verdict = (8, count + 1, 0) if count < STEP_NAMES else VALID
        yield case(f"end-after-{count}-lines", BASE[:count], verdict)
    yield case("end-no-links", BASE[:3] + ["step pick"], VALID)
    yield case("end-no-links-no-step-names", BASE[:3], (8, 4, 0))
    yield case("end-wrong-names-then-end", ["nodes root kind detector chanel"], (3, 1, 0))
    yield case("end-bad-values-then-end", [BASE[0], "4 0 cost tree pile"], (4, 2, 5))
    yield case("end-repeated-link-then-end", BASE[:4] + ["0 1 1 1"], (6, 5, 0))
    yield case("end-equal-ends-then-end", BASE[:4] + ["1 1 1 1"], (5, 5, 0))


# Numbers: fault 4, and the limits of each column.

NUMBERS = {
    "0": "0",
    "two-zeros": "00",
    "forty-zeros": "0" * 40,
    "01": "01",
    "plus-1": "+1",
    "minus-1": "-1",
    "1-point-0": "1.0",
    "1-exponent-1": "1e1",
    "0-x-1": "0x1",
    "1-letter": "1a",
    "1-slash": "1/",
    "1-colon": "1:",
    "letter": "l",
    "minus": "-",
    "63": "63",
    "64": "64",
    "65": "65",
    "65535": "65535",
    "65536": "65536",
    "65537": "65537",
    "99999": "99999",
    "100000": "100000",
    "4294967296": "4294967296",
    "4294967297": "4294967297",
    "18446744073709551616": "18446744073709551616",
    "18446744073709551617": "18446744073709551617",
    "2-to-the-128-plus-1": str(2**128 + 1),
    "forty-digits": "1234567890" * 4,
    "10000-digits": "1" * 10_000,
}

ACCEPTED_NUMBERS = {
    "nodes": {"63", "64"},
    "root": {"0", "63"},
    "from": {"0", "63"},
    "to": {"0", "63"},
    "cost": {"0", "63", "64", "65", "65535"},
    "width": {"63", "64", "65", "65535"},
    "pick": {"0", "63", "64", "65", "65535"},
}


def number_cases():
    """The same numbers in each column of numbers, with the others good."""
    link_names = "from to cost width"
    places = {
        "nodes": (2, 1, lambda text: with_settings(BASE[0], f"{text} 0 cost tree queue")),
        "root": (2, 2, lambda text: with_settings(BASE[0], f"64 {text} cost tree queue")),
        "from": (4, 1, lambda text: with_link(link_names, f"{text} 2 5 10", nodes=64)),
        "to": (4, 2, lambda text: with_link(link_names, f"2 {text} 5 10", nodes=64)),
        "cost": (4, 3, lambda text: with_link(link_names, f"0 1 {text} 10")),
        "width": (4, 4, lambda text: with_link(link_names, f"0 1 5 {text}")),
        "pick": (5, 2, lambda text: with_step("step pick", f"work {text}")),
    }
    for column, (line, field, lines_with) in places.items():
        for what, text in NUMBERS.items():
            if what in ACCEPTED_NUMBERS[column]:
                verdict = VALID
            elif column == "from" and not text[0].isdigit():
                verdict = (2, line, 0)  # not a link line, and too long for two names
            else:
                verdict = (4, line, field)
            yield case(f"number-{column}-{what}", lines_with(text), verdict)


def limit_cases():
    """Numbers at the limits that depend on other numbers, and columns that come first."""
    for nodes in (1, 2, 3, 63, 64):
        for root in sorted({0, nodes - 1, nodes, nodes + 1, 63, 64}):
            verdict = VALID if root < nodes else (4, 2, 2)
            lines = with_settings(BASE[0], f"{nodes} {root} cost tree queue")
            yield case(f"limit-nodes-{nodes}-root-{root}", lines, verdict)
    for nodes in (2, 4, 10, 64):
        for end, verdict_from, verdict_to in (
            (nodes - 1, VALID, VALID),
            (nodes, (4, 4, 1), (4, 4, 2)),
            (nodes + 1, (4, 4, 1), (4, 4, 2)),
            (65535, (4, 4, 1), (4, 4, 2)),
        ):
            lines = with_link("from to cost width", f"{end} 0 5 10", nodes)
            yield case(f"limit-nodes-{nodes}-from-{end}", lines, verdict_from)
            lines = with_link("from to cost width", f"0 {end} 5 10", nodes)
            yield case(f"limit-nodes-{nodes}-to-{end}", lines, verdict_to)
    for what, text, nodes, verdict in (
        ("one-node-link-to-itself", "0 0 5 10", 1, (5, 4, 0)),
        ("one-node-link-to-1", "0 1 5 10", 1, (4, 4, 2)),
        ("one-node-link-from-1", "1 0 5 10", 1, (4, 4, 1)),
        ("least-cost-and-width", "0 1 0 1", 2, VALID),
        ("greatest-cost-and-width", "0 1 65535 65535", 2, VALID),
    ):
        yield case(f"limit-{what}", with_link("from to cost width", text, nodes), verdict)
    yield case("limit-work-at-node-that-is-not-there", with_line(STEP, "work 64"), VALID)
    yield case("limit-work-at-65535", with_line(STEP, "work 65535"), VALID)
    for first in ("width", "cost", "to"):
        names = [first] + [name for name in ("from", "to", "cost", "width") if name != first]
        row = {"from": "0", "to": "1", "cost": "5", "width": "10"}
        for what, text, verdict in (
            ("plus-1", "+1", (2, 4, 0)),
            ("minus-1", "-1", (2, 4, 0)),
            ("01", "01", (4, 4, 1)),
            ("1-letter", "1x", (4, 4, 1)),
            ("65536", "65536", (4, 4, 1)),
            ("letter", "x", (2, 4, 0)),
            ("0", "0", {"width": (4, 4, 1), "cost": VALID, "to": (5, 4, 0)}[first]),
            ("3", "3", VALID),
        ):
            lines = with_link(" ".join(names), in_order(names, {**row, first: text}))
            yield case(f"limit-{first}-first-{what}", lines, verdict)


def word_cases():
    """Words that are not the column's, in each column of words."""
    settings = {"nodes": "4", "root": "0", "kind": "cost", "detector": "tree", "channel": "queue"}
    words = {
        "kind": ("cost", "width"),
        "detector": ("tree", "credit"),
        "channel": ("queue", "stack", "picked"),
    }
    every = [word for group in words.values() for word in group]
    every += ["Cost", "WIDTH", "costs", "widt", "0", "trees", "tre", "Queue", "stacked", "pick"]
    for field, column in ((3, "kind"), (4, "detector"), (5, "channel")):
        for place, word in enumerate(every):
            lines = with_settings(BASE[0], in_order(settings, {**settings, column: word}))
            verdict = VALID if word in words[column] else (4, 2, field)
            yield case(f"word-{column}-{place}-{word.lower()}", lines, verdict)
    for kind, detector, channel in itertools.product(*words.values()):
        lines = with_settings(BASE[0], f"4 0 {kind} {detector} {channel}")
        yield case(f"word-all-{kind}-{detector}-{channel}", lines, VALID)
    wrong = ("Deliver", "WORK", "delive", "delivers", "wor", "works", "controls", "contro")
    wrong += ("finish", "next", "step", "pick", "queue", "0")
    for place, word in enumerate(wrong):
        lines = with_line(STEP, f"{word} 0")
        yield case(f"word-step-{place}-{word.lower()}", lines, (4, STEP, 1))


# Two faults in one file: which of them is named.


def conflict_cases():
    """Two faults in one line, the earlier check first."""
    yield from layout_before_others()
    yield from two_bad_fields()
    yield from root_against_fields()
    yield from ends_against_others()
    yield from lines_against_lines()


def layout_before_others():
    """Fault 2 against 3, 4, 5 and 6 in the same line."""
    for what, number, text in (
        ("2-over-3-setting-names-double-space", 1, "nodes  rood kind detector channel"),
        ("2-over-3-setting-names-one-more", 1, "nodes rood kind detector channel channel"),
        ("2-over-3-setting-names-one-fewer", 1, "nodes rood kind detector"),
        ("2-over-3-link-names-tab", LINK_NAMES, "from to\tcost depth"),
        ("2-over-3-link-names-one-more", LINK_NAMES, "from to cost depth width"),
        ("2-over-3-link-names-one-fewer", LINK_NAMES, "from to depth"),
        ("2-over-3-step-names-trailing-space", STEP_NAMES, "step pack "),
        ("2-over-3-step-names-one-more", STEP_NAMES, "step pack pick"),
        ("2-over-3-step-names-one-fewer", STEP_NAMES, "stop"),
        ("2-over-3-step-names-byte-200", STEP_NAMES, "step p\xc8ck"),
        ("2-over-4-settings-trailing-space", VALUES, "0 0 cost tree queue "),
        ("2-over-4-settings-one-fewer", VALUES, "0 0 cost tree"),
        ("2-over-4-settings-one-more", VALUES, "0 0 cost tree queue 0"),
        ("2-over-4-settings-root-not-below", VALUES, "4 4 cost tree queue "),
        ("2-over-4-settings-byte-0", VALUES, "0 0 cost tree \0queue"),
        ("2-over-4-link-trailing-space", LINK, "0 2 x 4 "),
        ("2-over-4-link-one-fewer", LINK, "0 9 1"),
        ("2-over-4-link-one-more", LINK, "0 9 1 4 4"),
        ("2-over-4-link-byte-127", LINK, "0 2 65536 4\x7f"),
        ("2-over-4-step-double-space", STEP, "walk  0"),
        ("2-over-4-step-one-more", STEP, "walk 0 0"),
        ("2-over-4-step-one-fewer", STEP, "walk"),
        ("2-over-4-step-carriage-return", STEP, "walk 65536\r"),
        ("2-over-5-link-trailing-space", LINK, "2 2 1 4 "),
        ("2-over-5-link-one-fewer", LINK, "2 2 1"),
        ("2-over-6-link-trailing-space", LINK, "0 1 1 4 "),
        ("2-over-6-link-one-more", LINK, "0 1 1 4 4"),
    ):
        yield case(f"conflict-{what}", with_line(number, text), (2, number, 0))
    for what, number, text in (
        ("3-setting-names", 1, "nodes rood kind detector channel"),
        ("3-link-names", LINK_NAMES, "from to cost depth"),
        ("3-step-names", STEP_NAMES, "step pack"),
        ("4-settings", VALUES, "0 0 cost tree queue"),
        ("4-link", LINK, "0 9 1 4"),
        ("4-step", STEP, "walk 0"),
        ("5-link", LINK, "2 2 1 4"),
        ("6-link", LINK, "0 1 1 4"),
    ):
        data = join(BASE[: number - 1]) + text.encode()
        yield Case(f"conflict-2-over-{what}-no-line-feed", data, (2, number, 0))


def two_bad_fields():
    """Two bad fields in one line: the one further to the left."""
    good = {"from": "0", "to": "1", "cost": "5", "width": "10"}
    bad = {"from": "9", "to": "9", "cost": "65536", "width": "0"}
    for order in ("from to cost width", "width cost to from", "cost from width to"):
        names = order.split(" ")
        for pair in itertools.combinations(good, 2):
            row = {**good, **{name: bad[name] for name in pair}}
            field = min(names.index(name) for name in pair) + 1
            name = f"conflict-4-bad-{'-and-'.join(pair)}-in-{'-'.join(names)}"
            yield case(name, with_link(order, in_order(names, row)), (4, 4, field))
        lines = with_link(order, in_order(names, bad))
        yield case(f"conflict-4-all-bad-in-{'-'.join(names)}", lines, (4, 4, 1))

    good = {"nodes": "4", "root": "0", "kind": "cost", "detector": "tree", "channel": "queue"}
    bad = {"nodes": "0", "root": "64", "kind": "coast", "detector": "bush", "channel": "pile"}
    for order in ("nodes root kind detector channel", "kind channel root detector nodes"):
        names = order.split(" ")
        for pair in itertools.combinations(good, 2):
            row = {**good, **{name: bad[name] for name in pair}}
            field = min(names.index(name) for name in pair) + 1
            name = f"conflict-4-bad-{'-and-'.join(pair)}-in-{'-'.join(names)}"
            yield case(name, with_settings(order, in_order(names, row)), (4, 2, field))
        lines = with_settings(order, in_order(names, bad))
        yield case(f"conflict-4-all-bad-in-{'-'.join(names)}", lines, (4, 2, 1))

    yield case("conflict-4-bad-step-and-pick", with_step("step pick", "walk 65536"), (4, 5, 1))
    yield case("conflict-4-bad-pick-and-step", with_step("pick step", "65536 walk"), (4, 5, 1))
    yield case("conflict-4-step-bad-after-pick", with_step("pick step", "65535 walk"), (4, 5, 2))


def root_against_fields():
    """The root beside nodes against the other values, in several column orders."""
    standard = "nodes root kind detector channel"
    root_first = "root nodes kind detector channel"
    nodes_last = "root kind detector channel nodes"
    root_last = "nodes kind detector channel root"
    root_third = "channel kind root detector nodes"
    for what, order, text, field in (
        ("not-below", standard, "4 4 cost tree queue", 2),
        ("out-of-range", standard, "4 64 cost tree queue", 2),
        ("not-below-kind-bad", standard, "4 5 coast tree queue", 3),
        ("not-below-detector-bad", standard, "4 5 cost bush queue", 4),
        ("not-below-channel-bad", standard, "4 5 cost tree pile", 5),
        ("not-below-three-words-bad", standard, "4 5 coast bush pile", 3),
        ("out-of-range-kind-bad", standard, "4 64 coast tree queue", 2),
        ("out-of-range-channel-bad", standard, "4 64 cost tree pile", 2),
        ("not-a-number-channel-bad", standard, "4 x cost tree pile", 2),
        ("good-nodes-bad", standard, "0 0 cost tree queue", 1),
        ("not-below-nodes-bad", standard, "65 65 cost tree queue", 1),
        ("first-not-below", root_first, "4 4 cost tree queue", 1),
        ("first-nodes-0", root_first, "0 0 cost tree queue", 2),
        ("first-nodes-65", root_first, "63 65 cost tree queue", 2),
        ("first-out-of-range-nodes-bad", root_first, "64 65 cost tree queue", 1),
        ("first-not-below-channel-bad", root_first, "4 4 cost tree pile", 5),
        ("first-nodes-last-not-below", nodes_last, "4 cost tree queue 4", 1),
        ("first-nodes-last-0", nodes_last, "4 cost tree queue 0", 5),
        ("first-nodes-last-word-bad", nodes_last, "4 cost bush queue 4", 3),
        ("last-not-below", root_last, "4 cost tree queue 4", 5),
        ("last-out-of-range", root_last, "64 cost tree queue 64", 5),
        ("last-word-bad", root_last, "4 cost tree pile 4", 4),
        ("middle-not-below", root_third, "stack width 2 credit 2", 3),
        ("middle-nodes-bad", root_third, "stack width 2 credit 02", 5),
    ):
        yield case(f"conflict-root-{what}", with_settings(order, text), (4, 2, field))


def ends_against_others():
    """Faults 4, 5 and 6 in one link line; the pair 0 1 is that of line 4."""
    for what, text, verdict in (
        ("4-over-5-cost", "2 2 65536 4", (4, 5, 3)),
        ("4-over-5-width", "2 2 1 0", (4, 5, 4)),
        ("4-over-5-both-ends-at-nodes", "4 4 1 4", (4, 5, 1)),
        ("4-over-5-word", "2 2 1 x", (4, 5, 4)),
        ("4-over-5-leading-zero", "2 02 1 4", (4, 5, 2)),
        ("4-over-6-cost", "0 1 65536 4", (4, 5, 3)),
        ("4-over-6-width", "0 1 1 0", (4, 5, 4)),
        ("4-over-6-leading-zero", "0 01 1 4", (4, 5, 2)),
        ("4-over-6-two-zeros", "00 1 1 4", (4, 5, 1)),
    ):
        yield case(f"conflict-{what}", with_line(LINK, text), verdict)
    for what, links, verdict in (
        ("5-over-6-equal-ends-twice", ["1 1 5 10", "1 1 5 10"], (5, 4, 0)),
        ("5-over-6-equal-ends-after-pair", ["0 1 5 10", "1 1 5 10"], (5, 5, 0)),
        ("5-before-6-in-later-line", ["0 1 5 10", "2 2 1 1", "0 1 5 10"], (5, 5, 0)),
        ("6-before-5-in-later-line", ["0 1 5 10", "0 1 5 10", "2 2 1 1"], (6, 5, 0)),
    ):
        yield case(f"conflict-{what}", BASE[:3] + links + BASE[7:], verdict)
    for order in ("width cost to from", "cost to from width", "to from width cost"):
        names = order.split(" ")
        row = {"from": "1", "to": "1", "cost": "5", "width": "10"}
        lines = with_link(order, in_order(names, row))
        yield case(f"ends-equal-in-{'-'.join(names)}", lines, (5, 4, 0))
        lines = with_link(order, in_order(names, {**row, names[3]: "65536"}))
        yield case(f"conflict-4-over-5-in-{'-'.join(names)}", lines, (4, 4, 4))
        row["from"] = "2"
        line = in_order(names, row)
        lines = BASE[:2] + [order, line, line, "step pick"]
        yield case(f"pair-repeated-in-{'-'.join(names)}", lines, (6, 5, 0))
        back = in_order(names, {**row, "from": "1", "to": "2"})
        lines = BASE[:2] + [order, line, back, "step pick"]
        yield case(f"pair-and-its-return-in-{'-'.join(names)}", lines, VALID)
        other = in_order(names, {**row, names[3]: "65536"})
        lines = BASE[:2] + [order, line, other, "step pick"]
        yield case(f"conflict-4-over-6-in-{'-'.join(names)}", lines, (4, 5, 4))


def pair_cases():
    """Faults 5 and 6 at each place of the table, and pairs that only look alike."""
    ends = ["0 1", "0 2", "2 1", "1 3"]
    for number in range(4, LAST_LINK + 1):
        yield case(f"ends-equal-line-{number}", with_line(number, "3 3 5 10"), (5, number, 0))
        for node in (0, 3):
            lines = with_line(number, f"{node} {node} 0 65535")
            yield case(f"ends-equal-node-{node}-line-{number}", lines, (5, number, 0))
        for earlier in range(4, number):
            lines = with_line(number, ends[earlier - 4] + " 9 9")
            yield case(f"pair-of-line-{earlier}-again-in-line-{number}", lines, (6, number, 0))
    yield case("pair-and-its-return", with_line(LINK, "1 0 5 10"), VALID)
    yield case("pair-other-values", with_line(LINK, "0 1 6 11"), (6, LINK, 0))
    nodes = [BASE[0], "64 0 cost tree queue", BASE[2]]
    far = ["63 62 0 1", "62 63 0 1", "0 63 0 1", "63 0 0 1"]
    for what, links, verdict in (
        ("digits-alike-1-11-and-11-1", ["1 11 5 10", "11 1 5 10"], VALID),
        ("digits-alike-1-23-and-12-3", ["1 23 5 10", "12 3 5 10"], VALID),
        ("sums-alike", ["1 63 5 10", "2 62 5 10", "0 63 5 10", "1 0 5 10"], VALID),
        ("far-nodes", far, VALID),
        ("far-nodes-repeated", far + ["63 62 1 2"], (6, 8, 0)),
    ):
        yield case(f"pair-{what}", nodes + links + ["step pick"], verdict)


def lines_against_lines():
    """Faults in two lines: the earlier line's, whatever the numbers."""
    faulty = {
        1: ("nodes root kind detector chanel", 3, 0),
        VALUES: ("4 4 cost tree queue", 4, 2),
        LINK_NAMES: ("from to cost", 2, 0),
        LINK: ("2 2 1 4", 5, 0),
        LAST_LINK: ("0 1 1 1", 6, 0),
        STEP_NAMES: ("pick pick", 3, 0),
        STEP: ("work 65536", 4, 2),
        len(BASE): ("control  0", 2, 0),
    }
    for earlier, later in itertools.combinations(faulty, 2):
        lines = altered({number: faulty[number][0] for number in (earlier, later)})
        _, number, field = faulty[earlier]
        yield case(f"conflict-line-{earlier}-before-line-{later}", lines, (number, earlier, field))
    # A smaller mesh makes links bad that were good, a wrong order makes values bad.
    yield case("conflict-fewer-nodes", with_line(VALUES, "3 0 cost tree queue"), (4, 7, 2))
    lines = with_line(LINK_NAMES, "cost width from to")
    yield case("conflict-ends-swapped-with-values", lines, (4, 4, 3))
    lines = with_line(1, "root nodes kind detector channel")
    yield case("conflict-settings-swapped", lines, (4, 2, 2))


# The limits of the whole file: faults 1 and 7.


def many_links(count, nodes=64):
    """Lines of links over distinct pairs, in the standard order."""
    pairs = ((start, end) for start in range(nodes) for end in range(nodes) if start != end)
    return [f"{start} {end} 0 1" for start, end in itertools.islice(pairs, count)]


def link_count_cases():
    """About 512 links, which stand in lines 4 to 515."""
    head = [BASE[0], "64 0 cost tree queue", "from to cost width"]
    *links, new = many_links(513)
    full = head + links

    yield case("links-512", full + ["step pick"], VALID)
    yield case("links-513", full + [new, "step pick"], (7, 516, 0))
    for what, line, verdict in (
        ("7-over-4", "99 x y z", (7, 516, 0)),
        ("7-over-5", "9 9 5 10", (7, 516, 0)),
        ("7-over-6", "0 1 0 1", (7, 516, 0)),
        ("2-over-7-one-fewer", "9 1 5", (2, 516, 0)),
        ("2-over-7-trailing-space", new + " ", (2, 516, 0)),
        ("2-not-7-no-digit-first", "-" + new, (2, 516, 0)),
        ("3-not-7-two-names", "step pack", (3, 516, 0)),
    ):
        yield case(f"links-513th-{what}", full + [line, "step pick"], verdict)
    yield Case("links-513th-2-over-7-no-line-feed", join(full) + new.encode(), (2, 516, 0))
    yield case("links-512-then-end", full, (8, 516, 0))
    yield case("links-512th-6-before-7", full[:-1] + ["0 1 0 1", new], (6, 515, 0))
    turned = [" ".join(reversed(line.split(" "))) for line in links + [new]]
    lines = head[:2] + ["width cost to from"] + turned + ["step pick"]
    yield case("links-513-columns-reversed", lines, (7, 516, 0))


def filled(lines, size):
    """A file of this many bytes: the lines, then steps; and how many lines it has."""
    data = join(lines)
    steps, over = divmod(size - len(data), len(b"work 0\n"))
    data += b"work 0\n" * (steps - over) + b"work 10\n" * over
    assert len(data) == size
    return data, len(lines) + steps


def size_cases():
    """Files of about 65,536 bytes."""
    limit = reader.FILE_LIMIT
    for size in (limit - 1, limit):
        yield Case(f"size-{size}", filled(BASE, size)[0], VALID)
    for size in (limit + 1, limit + 2, limit + 7, 100_000):
        yield Case(f"size-{size}", filled(BASE, size)[0], (1, 0, 0))
    data, lines = filled(BASE, limit)
    yield Case("size-65536-no-line-feed-at-end", data[:-1] + b"0", (2, lines, 0))
    yield Case("size-65535-no-line-feed-at-end", data[:-1], (2, lines, 0))
    yield Case("size-65537-no-line-feed-at-end", data + b"w", (1, 0, 0))
    yield Case("size-65537-empty-line-at-end", data + b"\n", (1, 0, 0))
    yield Case("size-65536-first-step-bad", data.replace(b"deliver 0", b"deliver x"), (4, 9, 2))
    for what, end, field in (("step-bad", b"walk 0\n", 1), ("pick-bad", b"work x\n", 2)):
        data, lines = filled(BASE, limit - len(end))
        yield Case(f"size-65536-last-{what}", data + end, (4, lines + 1, field))
    data, lines = filled(BASE, limit - 1)
    yield Case("size-65536-empty-line-at-end", data + b"\n", (2, lines + 1, 0))
    for size, verdict in ((limit, (3, 1, 0)), (limit + 1, (1, 0, 0))):
        yield Case(f"size-{size}-wrong-names", b"N" + filled(BASE, size)[0][1:], verdict)
    yield Case("size-65536-one-line", b"x" * limit, (2, 1, 0))
    yield Case("size-65537-one-line", b"x" * (limit + 1), (1, 0, 0))
    yield Case("size-65536-one-line-ended", b"x" * (limit - 1) + b"\n", (2, 1, 0))
    yield Case("size-65536-line-feeds", b"\n" * limit, (2, 1, 0))
    yield Case("size-65537-line-feeds", b"\n" * (limit + 1), (1, 0, 0))
    yield Case("size-65536-bytes-0", b"\0" * limit, (2, 1, 0))
    yield Case("size-65537-bytes-0", b"\0" * (limit + 1), (1, 0, 0))
    digits = join(BASE) + b"work "
    digits += b"9" * (limit - len(digits) - 1) + b"\n"
    yield Case("size-65536-one-long-number", digits, (4, 12, 2))
    zeros = join(BASE) + b"work "
    zeros += b"0" * (limit - len(zeros) - 1) + b"\n"
    yield Case("size-65536-one-long-zero", zeros, (4, 12, 2))
    word = join(BASE) + b"w"
    word += b"o" * (limit - len(word) - 3) + b" 0\n"
    yield Case("size-65536-one-long-word", word, (4, 12, 1))
    name = b"n" * (limit - len(BASE[0]) + 4) + BASE[0][5:].encode() + b"\n"
    yield Case("size-65536-one-long-name", name, (3, 1, 0))
    full = [BASE[0], "64 0 cost tree queue", "from to cost width", *many_links(512), "step pick"]
    yield Case("size-65536-512-links", filled(full, limit)[0], VALID)


def step_cases():
    """Tables of steps: long ones, and lines of other tables among them."""
    words = ("deliver", "work", "control")
    many = [f"{words[n % 3]} {n * n * 331 % 65_536}" for n in range(400)]
    yield case("steps-400", BASE[:8] + many, VALID)
    yield case("steps-400-last-bad", BASE[:8] + many[:399] + ["deliver 65536"], (4, 408, 2))
    turned = [" ".join(reversed(line.split(" "))) for line in many]
    yield case("steps-400-pick-first", BASE[:7] + ["pick step"] + turned, VALID)
    yield case("steps-900-alike", BASE[:8] + ["control 65535"] * 900, VALID)
    yield case("steps-none", BASE[:8], VALID)
    yield case("steps-one", BASE[:9], VALID)
    yield case("steps-link-line-among-them", BASE + ["0 3 5 10"], (2, 12, 0))
    yield case("steps-digit-first", BASE + ["0 deliver"], (4, 12, 1))
    yield case("steps-digit-first-pick-first", BASE[:7] + ["pick step", "0 deliver"], VALID)
    yield case("steps-two-digits", BASE + ["0 0"], (4, 12, 1))
    yield case("steps-two-digits-pick-first", BASE[:7] + ["pick step", "0 0"], (4, 9, 2))
    yield case("steps-second-file-after-them", BASE + BASE, (2, 12, 0))


# Random files.


class Dice:
    """A generator of numbers that is the same in every version of Python."""

    def __init__(self, seed):
        self.state = seed

    def below(self, count):
        """A number from 0 to count less 1."""
        self.state = (self.state * 6364136223846793005 + 1442695040888963407) % 2**64
        return (self.state >> 33) % count

    def one_of(self, choices):
        """One of the choices."""
        return choices[self.below(len(choices))]

    def shuffled(self, choices):
        """The choices in another order."""
        left = list(choices)
        return [left.pop(self.below(len(left))) for _ in range(len(left))]


def random_number(dice, least):
    """A number up to 65,535, often at a limit or with few digits."""
    sort = dice.below(4)
    if sort == 0:
        return dice.one_of((least, least + 1, 9, 10, 255, 256, 32767, 32768, 65534, 65535))
    return least + dice.below((10, 1000, 65_536 - least)[sort - 1])


def random_session(dice, most_links, most_steps):
    """A session in random column orders, and the same in the standard orders."""
    nodes = dice.one_of((1, 2, 3, 4, 5, 8, 12, 63, 64))
    settings = {
        "nodes": nodes,
        "root": dice.below(nodes),
        "kind": dice.one_of(("cost", "width")),
        "detector": dice.one_of(("tree", "credit")),
        "channel": dice.one_of(("queue", "stack", "picked")),
    }
    pairs = [(start, end) for start in range(nodes) for end in range(nodes) if start != end]
    links = []
    for _ in range(min(dice.below(most_links + 1), len(pairs))):
        start, end = pairs.pop(dice.below(len(pairs)))
        cost, width = random_number(dice, 0), random_number(dice, 1)
        links.append({"from": start, "to": end, "cost": cost, "width": width})
    words = ("deliver", "work", "control")
    steps = [
        {"step": dice.one_of(words), "pick": random_number(dice, 0)}
        for _ in range(dice.below(most_steps + 1))
    ]
    tables = (
        (["nodes", "root", "kind", "detector", "channel"], [settings]),
        (["from", "to", "cost", "width"], links),
        (["step", "pick"], steps),
    )
    written, standard = [], []
    for names, rows in tables:
        for lines, order in ((written, dice.shuffled(names)), (standard, names)):
            lines.append(" ".join(order))
            lines += [" ".join(str(row[name]) for name in order) for row in rows]
    return written, standard


def random_valid_cases():
    """Random sessions; what comes of them is known without the reader."""
    dice = Dice(1980)
    for number in range(1, 41):
        written, standard = random_session(dice, 12, 10)
        if reader.normalize(join(written)) != join(standard):
            raise AssertionError(f"random-valid-{number}: not the session that was written")
        yield case(f"random-valid-{number}", written, VALID)


def random_damage_cases():
    """Random sessions with one byte, one field or one line damaged."""
    dice = Dice(1982)
    other_bytes = b"0123456789 \n\r\t\0\x7f\xc8-+.!~\\abcdefghijklmnopqrstuvwxyzCW"
    for number in range(1, 101):
        data = join(random_session(dice, 5, 4)[0])
        place = dice.below(len(data))
        byte = bytes([dice.one_of(other_bytes)])
        sort = dice.one_of(("replaced", "replaced", "inserted", "removed", "doubled"))
        middle = {
            "replaced": byte,
            "inserted": byte + data[place : place + 1],
            "removed": b"",
            "doubled": data[place : place + 1] * 2,
        }[sort]
        damaged = data[:place] + middle + data[place + 1 :]
        yield Case(f"random-byte-{number}-{sort}", damaged, OPEN)
    for number in range(1, 16):
        data = join(random_session(dice, 5, 4)[0])
        yield Case(f"random-cut-{number}", data[: dice.below(len(data))], OPEN)

    pool = "0 1 2 3 5 8 12 63 64 65 00 01 65535 65536 1x x -".split(" ")
    pool += "cost width tree credit queue stack picked deliver work control".split(" ")
    pool += "nodes root kind detector channel from to step pick".split(" ")
    for number in range(1, 61):
        lines = random_session(dice, 8, 4)[0]
        place = dice.below(len(lines))
        fields = lines[place].split(" ")
        fields[dice.below(len(fields))] = dice.one_of(pool)
        lines[place] = " ".join(fields)
        yield case(f"random-field-{number}", lines, OPEN)
    for number in range(1, 31):
        lines = random_session(dice, 8, 4)[0]
        place = dice.below(len(lines))
        sort = dice.one_of(("removed", "doubled", "moved"))
        line = lines.pop(place)
        if sort == "doubled":
            lines.insert(place, line)
        if sort != "removed":
            lines.insert(dice.below(len(lines) + 1), line)
        yield case(f"random-line-{number}-{sort}", lines, OPEN)


def example_cases():
    """The session files of examples/, all of them valid."""
    for path in sorted(EXAMPLES.glob("*.session")):
        yield Case("example-" + path.stem, path.read_bytes(), VALID)


def all_cases():
    """Every case, in the order of the archive."""
    yield case("base", BASE, VALID)
    yield from layout_cases()
    yield from order_cases()
    yield from names_cases()
    yield from end_cases()
    yield from number_cases()
    yield from limit_cases()
    yield from word_cases()
    yield from conflict_cases()
    yield from pair_cases()
    yield from link_count_cases()
    yield from size_cases()
    yield from step_cases()
    yield from example_cases()
    yield from random_valid_cases()
    yield from random_damage_cases()


# The archive.

ESCAPES = {
    0: "\\0",
    9: "\\t",
    10: "\\n",
    13: "\\r",
    92: "\\\\",
    127: "\\d",
    200: "\\h",
}
LONG_LINE = 200
LONG_RUN = 40
MANY_LINES = 100
LINES_IN_PIECE = 8


def escaped(data):
    """The bytes as a piece; a space at either end is written as an escape."""
    texts = [ESCAPES[byte] if byte in ESCAPES else chr(byte) for byte in data]
    assert all(32 <= ord(char) <= 126 for text in texts for char in text)
    for end in (0, -1):
        if texts[end] == " ":
            texts[end] = "\\e"
    return "".join(texts)


def runs(parts):
    """Each part with the number of times that it stands there in a row."""
    return [(len(list(group)), part) for part, group in itertools.groupby(parts)]


def pieces(data):
    """The bytes as pieces with their counts.

    A line is a piece of its own, and so are lines alike that stand in a row. A
    very long line is cut into its runs of like bytes. In a file of many lines
    several make one piece.
    """
    lines = runs(split_lines(data))
    parts = []
    for count, line in lines:
        if len(line) > LONG_LINE:
            parts += long_line_pieces(line) * count
        elif count > 2:
            parts.append((count, line))
        else:
            parts += [(1, line)] * count
    return packed(parts, LINES_IN_PIECE) if len(lines) > MANY_LINES else parts


def long_line_pieces(line):
    """A line as pieces: each long run of a byte, and what stands between them."""
    parts = []
    for count, byte in runs(bytes([byte]) for byte in line):
        if count >= LONG_RUN:
            parts.append((count, byte))
        elif parts and parts[-1][0] == 1:
            parts[-1] = (1, parts[-1][1] + byte * count)
        else:
            parts.append((1, byte * count))
    return parts


def split_lines(data):
    """The lines of a file with their line feeds, and with no other line ends."""
    lines = [line + b"\n" for line in data.split(b"\n")]
    lines[-1] = lines[-1][:-1]
    return [line for line in lines if line]


def packed(parts, together):
    """The parts with up to so many single ones in a row joined."""
    joined = []
    room = 0
    for count, part in parts:
        if count == 1 and room > 0:
            joined[-1] = (1, joined[-1][1] + part)
            room -= 1
        else:
            joined.append((count, part))
            room = together - 1 if count == 1 else 0
    return joined


def archived(one):
    """The archive's lines for a case."""
    lines = [f"case {one.name}"]
    for count, part in pieces(one.data):
        lines.append(f"t {escaped(part)}" if count == 1 else f"r {count} {escaped(part)}")
    return lines


def restored(lines):
    """The file that the archive's lines for a case write."""
    meanings = {text[1]: byte for byte, text in ESCAPES.items()} | {"e": 32}
    data = bytearray()
    for line in lines[1:]:
        sort, piece = line.split(" ", 1)
        count = 1
        if sort == "r":
            number, piece = piece.split(" ", 1)
            count = int(number)
        chars = iter(piece)
        part = [meanings[next(chars)] if char == "\\" else ord(char) for char in chars]
        data += bytes(part) * count
    return bytes(data)


def verdict_of(output):
    """The verdict that the reader's output tells."""
    names, values = output.split(b"\n")[:2]
    if names != b"fault layer line field":
        return VALID
    number, _, line, field = values.split(b" ")
    return int(number), int(line), int(field)


def checked(one):
    """The reader's output for a case, compared with the verdict by hand."""
    output = reader.normalize(one.data)
    verdict = verdict_of(output)
    if one.verdict not in (OPEN, verdict):
        raise AssertionError(f"{one.name}: {verdict} in place of {one.verdict}")
    if verdict == VALID and reader.normalize(output) != output:
        raise AssertionError(f"{one.name}: the session changes when it is read again")
    return output


def shown(output):
    """The output itself, or its length and sum if it is long."""
    if len(output) <= LONGEST_SHOWN:
        return output
    total = 0
    for byte in output:
        total = (total * 31 + byte) % 2**32
    return b"bytes %d sum %d\n" % (len(output), total)


def main():
    """Writes both files and says what is in them."""
    archive, expected = "", b""
    names, verdicts = set(), Counter()
    for one in all_cases():
        assert re.fullmatch("[a-z0-9-]+", one.name) and one.name not in names, one.name
        names.add(one.name)
        lines = archived(one)
        assert restored(lines) == one.data, one.name
        archive += "".join(line + "\n" for line in lines)
        output = checked(one)
        expected += f"case {one.name}\n".encode() + shown(output)
        verdict = verdict_of(output)
        verdicts["valid" if verdict == VALID else f"fault {verdict[0]}"] += 1
    (CRATE / "data").mkdir(parents=True, exist_ok=True)
    (CRATE / "data" / "readings.txt").write_bytes(archive.encode("ascii"))
    (CRATE / "stdout").write_bytes(expected)
    print(f"{len(names)} cases")
    for verdict, count in sorted(verdicts.items()):
        print(f"{verdict}: {count}")


if __name__ == "__main__":
    main()
