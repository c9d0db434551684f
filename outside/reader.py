"""Reads a session file and writes it in the standard column order.

    python3 outside/reader.py < FILE        write the session, or the fault
    python3 outside/reader.py --self-test   try the files at the end of this module

A session file is lines of fields. Every line ends with a line feed. A field is
one or more bytes 33 to 126; exactly one space stands between two fields, and
none before the first or after the last. A table is a line of names, each once
and in any order, then lines of values in that order. There are three tables:

1. nodes root kind detector channel: exactly one line of values;
2. from to cost width: at most 512 lines, each beginning with a digit, and the
   first line that does not is the names line of the next table;
3. step pick: lines to the end of the file, possibly none.

Numbers are decimal digits without a leading zero, except 0 itself. The two ends
of a link differ and are below nodes, the root is below nodes, and no ordered
pair of ends occurs twice.

The first check that fails is the file's fault:

    the whole file   1  over 65,536 bytes (line 0)
    at each line     8  no line where a names line or the first table's values
                        must come (the line after the last)
                     2  layout, a missing line feed, or the number of fields
                     3  names that are not the table's
                     7  a 513th link
                     4  a bad word, number or range, fields from left to right;
                        after them the root not below nodes, at the root's field
                     5  a link with equal ends
                     6  a pair of ends that an earlier link has

A fault has a line, from 1, and a field, from 1 for fault 4 and 0 for the others.
"""

import sys
from typing import NamedTuple

FILE_LIMIT = 65_536
LINK_LIMIT = 512
NODE_LIMIT = 64
GREATEST = 65_535

SETTING_NAMES = (b"nodes", b"root", b"kind", b"detector", b"channel")
LINK_NAMES = (b"from", b"to", b"cost", b"width")
STEP_NAMES = (b"step", b"pick")

WORDS = {
    b"kind": (b"cost", b"width"),
    b"detector": (b"tree", b"credit"),
    b"channel": (b"queue", b"stack", b"picked"),
    b"step": (b"deliver", b"work", b"control"),
}
RANGES = {
    b"nodes": (1, NODE_LIMIT),
    b"root": (0, NODE_LIMIT - 1),
    b"cost": (0, GREATEST),
    b"width": (1, GREATEST),
    b"pick": (0, GREATEST),
}


class Fault(Exception):
    """The first check that a file fails: its number, line and field."""

    def __init__(self, number, line, field=0):
        super().__init__(number, line, field)
        self.number = number
        self.line = line
        self.field = field


class Session(NamedTuple):
    """An accepted file; each row is a dict from column name to value."""

    settings: dict
    links: list
    steps: list


class Lines:
    """The lines of a file, taken in order; `number` is that of the last one taken."""

    def __init__(self, data):
        self.data = data
        self.start = 0
        self.number = 0

    def at_end(self):
        """Whether no byte remains."""
        return self.start == len(self.data)

    def begins_with_digit(self):
        """Whether a byte remains and is one of the ten digits."""
        return self.data[self.start : self.start + 1].isdigit()

    def take(self, count):
        """The fields of the next line, which has to have `count` of them."""
        self.number += 1
        if self.at_end():
            raise Fault(8, self.number)
        end = self.data.find(b"\n", self.start)
        if end < 0:
            raise Fault(2, self.number)
        fields = self.data[self.start : end].split(b" ")
        if len(fields) != count or not all(map(is_field, fields)):
            raise Fault(2, self.number)
        self.start = end + 1
        return fields


def is_field(text):
    """Whether a text is one or more bytes 33 to 126."""
    return len(text) > 0 and all(33 <= byte <= 126 for byte in text)


def number_in(text, least, greatest):
    """The number that a text writes if it lies in the range, otherwise None."""
    if not text.isdigit():
        return None
    if text.startswith(b"0") and text != b"0":
        return None
    if len(text) > len(str(greatest)):
        return None
    value = int(text)
    return value if least <= value <= greatest else None


def value_of(name, text, ranges):
    """What a field of the named column means, or None if it is a bad one."""
    if name in WORDS:
        return text if text in WORDS[name] else None
    return number_in(text, *ranges[name])


def read_names(lines, names):
    """Takes a names line; its answer is the file's own column order."""
    order = lines.take(len(names))
    if sorted(order) != sorted(names):
        raise Fault(3, lines.number)
    return order


def read_values(lines, order, fields, ranges):
    """The row that the fields of the line just taken write, from left to right."""
    row = {}
    for place, (name, text) in enumerate(zip(order, fields), start=1):
        row[name] = value_of(name, text, ranges)
        if row[name] is None:
            raise Fault(4, lines.number, place)
    return row


def read_settings(lines):
    """The first table: one row."""
    order = read_names(lines, SETTING_NAMES)
    fields = lines.take(len(order))
    row = read_values(lines, order, fields, RANGES)
    if row[b"root"] >= row[b"nodes"]:
        raise Fault(4, lines.number, order.index(b"root") + 1)
    return row


def read_links(lines, nodes):
    """The second table: a row for each line that begins with a digit."""
    order = read_names(lines, LINK_NAMES)
    ranges = {**RANGES, b"from": (0, nodes - 1), b"to": (0, nodes - 1)}
    links = []
    pairs = set()
    while lines.begins_with_digit():
        fields = lines.take(len(order))
        if len(links) == LINK_LIMIT:
            raise Fault(7, lines.number)
        row = read_values(lines, order, fields, ranges)
        pair = (row[b"from"], row[b"to"])
        if pair[0] == pair[1]:
            raise Fault(5, lines.number)
        if pair in pairs:
            raise Fault(6, lines.number)
        links.append(row)
        pairs.add(pair)
    return links


def read_steps(lines):
    """The third table: a row for each line to the end of the file."""
    order = read_names(lines, STEP_NAMES)
    steps = []
    while not lines.at_end():
        fields = lines.take(len(order))
        steps.append(read_values(lines, order, fields, RANGES))
    return steps


def read(data):
    """The session that the bytes of a file write; raises Fault if they write none."""
    if len(data) > FILE_LIMIT:
        raise Fault(1, 0)
    lines = Lines(data)
    settings = read_settings(lines)
    links = read_links(lines, settings[b"nodes"])
    steps = read_steps(lines)
    return Session(settings, links, steps)


def line_of(values):
    """One line with a space between the values."""
    texts = [b"%d" % value if isinstance(value, int) else value for value in values]
    return b" ".join(texts) + b"\n"


def table_of(names, rows):
    """A names line, then one line for each row."""
    return line_of(names) + b"".join(line_of(row[name] for name in names) for row in rows)


def write(session):
    """The session's file in the standard column order."""
    return (
        table_of(SETTING_NAMES, [session.settings])
        + table_of(LINK_NAMES, session.links)
        + table_of(STEP_NAMES, session.steps)
    )


def normalize(data):
    """The whole output for a file: its session, or its fault under a line of names."""
    try:
        return write(read(data))
    except Fault as fault:
        values = (fault.number, b"reader", fault.line, fault.field)
        return line_of((b"fault", b"layer", b"line", b"field")) + line_of(values)


# Self-test: files with what has to come of them, written by hand.

WORKED = b"""\
nodes root kind detector channel
4 0 cost tree queue
from to cost width
0 1 5 10
0 2 1 4
2 1 2 8
1 3 1 6
step pick
"""

REORDERED = b"""\
channel kind nodes detector root
stack width 3 credit 2
width from cost to
65535 0 0 1
1 2 65535 0
pick step
0 deliver
65535 work
7 control
"""

REORDERED_STANDARD = b"""\
nodes root kind detector channel
3 2 width credit stack
from to cost width
0 1 0 65535
2 0 65535 1
step pick
deliver 0
work 65535
control 7
"""

SMALLEST = b"""\
nodes root kind detector channel
1 0 cost tree queue
from to cost width
step pick
"""

# 512 links among 64 nodes, in lines 4 to 515; the next line is line 516.
FULL_HEAD = b"nodes root kind detector channel\n64 0 cost tree queue\nfrom to cost width\n"
FULL_LINKS = b"".join(
    b"%d %d 1 1\n" % (start, (start + hop) % 64) for start in range(64) for hop in range(1, 9)
)
FULL = FULL_HEAD + FULL_LINKS + b"step pick\n"

# 82 + 7 * 9,346 + 8 * 4 = 65,536 bytes in 4 + 9,350 lines.
LARGEST = SMALLEST + b"work 0\n" * 9_346 + b"work 10\n" * 4


def fault(number, line, field=0):
    """The output for a fault."""
    return b"fault layer line field\n%d reader %d %d\n" % (number, line, field)


def swap(old, new, data=WORKED):
    """The file with the first occurrence of a text replaced."""
    assert old in data
    return data.replace(old, new, 1)


def self_test():
    """Compares the reader's output with the expected one, file by file."""
    table = [
        # Accepted.
        (WORKED, WORKED),
        (REORDERED, REORDERED_STANDARD),
        (SMALLEST, SMALLEST),
        (FULL, FULL),
        (swap(b"4 0 cost", b"64 63 cost"), swap(b"4 0 cost", b"64 63 cost")),
        (WORKED + b"work 64\n", WORKED + b"work 64\n"),
        (LARGEST, LARGEST),
        # 1: the whole file.
        (b"x" * 65_537, fault(1, 0)),
        (LARGEST + b"\n", fault(1, 0)),
        # 2: layout and count.
        (b"x" * 65_536, fault(2, 1)),
        (b"\n", fault(2, 1)),
        (WORKED[:-1], fault(2, 8)),
        (LARGEST[:-1] + b"0", fault(2, 9_354)),
        (b"nodes root kind detector channel", fault(2, 1)),
        (swap(b"4 0 cost", b"4  0 cost"), fault(2, 2)),
        (swap(b"0 2 1 4\n", b"0 2 1 4 \n"), fault(2, 5)),
        (swap(b"0 2 1 4\n", b" 0 2 1 4\n"), fault(2, 5)),
        (swap(b"0 2 1 4\n", b"0 2 1 4\r\n"), fault(2, 5)),
        (swap(b"0 2 1 4\n", b"0 2\t1 4\n"), fault(2, 5)),
        (swap(b"0 2 1 4\n", b"0 2 1\n"), fault(2, 5)),
        (swap(b"0 2 1 4\n", b"-1 2 1 4\n"), fault(2, 5)),
        (swap(b"0 2 1 4\n", b"\n"), fault(2, 5)),
        (WORKED + b"0 3 1 6\n", fault(2, 9)),
        (WORKED + b"deliver 0", fault(2, 9)),
        (WORKED + b"deliver \x7f\n", fault(2, 9)),
        (swap(b"step pick", b"0step pick"), fault(2, 8)),
        (FULL_HEAD + FULL_LINKS + b"9 8 1\n", fault(2, 516)),
        # 3: names.
        (swap(b"root", b"Root"), fault(3, 1)),
        (swap(b"from to", b"from from"), fault(3, 3)),
        (swap(b"step pick", b"step pack"), fault(3, 8)),
        (swap(b"2 1 2 8", b"x 1"), fault(3, 6)),
        # 4: words, numbers and ranges.
        (swap(b"4 0 cost", b"0 0 cost"), fault(4, 2, 1)),
        (swap(b"4 0 cost", b"65 0 cost"), fault(4, 2, 1)),
        (swap(b"4 0 cost", b"4 64 coast"), fault(4, 2, 2)),
        (swap(b"4 0 cost", b"4 4 cost"), fault(4, 2, 2)),
        (swap(b"4 0 cost tree", b"4 4 cost bush"), fault(4, 2, 4)),
        (swap(b"credit 2", b"credit 3", REORDERED), fault(4, 2, 5)),
        (swap(b"0 2 1 4", b"0 4 1 4"), fault(4, 5, 2)),
        (swap(b"0 2 1 4", b"0 2 01 4"), fault(4, 5, 3)),
        (swap(b"0 2 1 4", b"0 2 65536 0"), fault(4, 5, 3)),
        (swap(b"0 2 1 4", b"0 2 1 0"), fault(4, 5, 4)),
        (swap(b"0 2 1 4", b"0 2 1 " + b"9" * 5_000), fault(4, 5, 4)),
        (swap(b"1 2 65535 0", b"0 3 65535 0", REORDERED), fault(4, 5, 1)),
        (swap(b"0 2 1 4", b"2 2 x 4"), fault(4, 5, 3)),
        (swap(b"0 2 1 4", b"0 1 1 x"), fault(4, 5, 4)),
        (WORKED + b"walk 65536\n", fault(4, 9, 1)),
        (WORKED + b"work 65536\n", fault(4, 9, 2)),
        # 5 and 6: ends of links.
        (swap(b"0 2 1 4", b"2 2 1 4"), fault(5, 5)),
        (swap(b"2 1 2 8", b"0 1 2 8"), fault(6, 6)),
        (swap(b"2 1 2 8", b"1 0 2 8"), swap(b"2 1 2 8", b"1 0 2 8")),
        # 7: a 513th link, whatever its values.
        (FULL_HEAD + FULL_LINKS + b"0 9 1 1\nstep pick\n", fault(7, 516)),
        (FULL_HEAD + FULL_LINKS + b"0 99 x x\n", fault(7, 516)),
        # 8: the end too early.
        (b"", fault(8, 1)),
        (b"nodes root kind detector channel\n", fault(8, 2)),
        (b"nodes root kind detector channel\n4 0 cost tree queue\n", fault(8, 3)),
        (FULL_HEAD, fault(8, 4)),
        (FULL_HEAD + FULL_LINKS, fault(8, 516)),
    ]
    wrong = 0
    for place, (data, expected) in enumerate(table, start=1):
        answer = normalize(data)
        if answer != expected:
            wrong += 1
            print(f"file {place}: {answer[:200]!r} in place of {expected[:200]!r}")
    print(f"{len(table)} files, {wrong} wrong")
    return wrong == 0


def main():
    """Normalizes standard input, or tests the reader itself."""
    if sys.argv[1:] == ["--self-test"]:
        sys.exit(0 if self_test() else 1)
    if sys.argv[1:]:
        sys.exit("usage: reader.py [--self-test] < FILE")
    sys.stdout.buffer.write(normalize(sys.stdin.buffer.read()))


if __name__ == "__main__":
    main()
