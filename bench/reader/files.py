"""Writes the session files on which the readers are timed.

    python3 bench/reader/files.py DIRECTORY

    full.session      65,536 bytes: 64 nodes, 512 links, then steps
    links.session     the same links and no step
    steps.session     65,536 bytes: 2 nodes, 1 link, then steps
    shuffled.session  full.session with other column orders in all three tables

The same bytes come out at every run.
"""

import pathlib
import sys

SIZE = 65_536
NODES = 64
LINKS = 512
STANDARD = ("nodes root kind detector channel", "from to cost width", "step pick")
SHUFFLED = ("channel detector kind root nodes", "width to cost from", "pick step")
LONGEST = len("deliver 65535\n")
SHORTEST = len("work 0\n")


class Dice:
    """A generator of numbers that is the same in every version of Python."""

    def __init__(self, seed):
        self.state = seed

    def below(self, count):
        """A number from 0 to count less 1."""
        self.state = (self.state * 6364136223846793005 + 1442695040888963407) % 2**64
        return (self.state >> 33) % count

    def with_digits(self, digits):
        """A number of so many digits, at most 65,535."""
        least = 0 if digits == 1 else 10 ** (digits - 1)
        return least + self.below(min(10**digits, 65_536) - least)


def settings(nodes):
    """The row of the first table."""
    return {"nodes": nodes, "root": 0, "kind": "cost", "detector": "tree", "channel": "queue"}


def many_links():
    """512 links between 64 nodes."""
    dice = Dice(1)
    pairs = [(start, end) for start in range(NODES) for end in range(NODES) if start != end]
    links = []
    for _ in range(LINKS):
        start, end = pairs.pop(dice.below(len(pairs)))
        cost, width = (dice.with_digits(1 + dice.below(5)) for _ in range(2))
        links.append({"from": start, "to": end, "cost": cost, "width": max(width, 1)})
    return links


def steps_for(room):
    """Steps whose lines have exactly so many bytes."""
    dice = Dice(2)
    steps = []
    while room > 0:
        if room >= LONGEST + SHORTEST:
            word = ("deliver", "work", "control")[dice.below(3)]
            digits = 1 + dice.below(5)
        else:
            # The last line or two: `work` with 1 to 5 digits, `control` with 3 to 5.
            length = room if room <= LONGEST else SHORTEST
            word = "work" if length <= len("work 65535\n") else "control"
            digits = length - len(f"{word} \n")
        steps.append({"step": word, "pick": dice.with_digits(digits)})
        room -= len(f"{word} \n") + digits
    return steps


def text_of(orders, tables):
    """The session file with these rows in these column orders."""
    lines = []
    for order, rows in zip(orders, tables):
        lines.append(order)
        lines += [" ".join(str(row[name]) for name in order.split(" ")) for row in rows]
    return "".join(line + "\n" for line in lines).encode("ascii")


def filled(first, links):
    """The tables of a session whose file has exactly SIZE bytes."""
    room = SIZE - len(text_of(STANDARD, ([first], links, [])))
    return [first], links, steps_for(room)


def main():
    """Writes the four files into the directory."""
    if len(sys.argv) != 2:
        sys.exit("usage: files.py DIRECTORY")
    directory = pathlib.Path(sys.argv[1])
    directory.mkdir(parents=True, exist_ok=True)
    links = many_links()
    full = filled(settings(NODES), links)
    one_link = [{"from": 0, "to": 1, "cost": 5, "width": 10}]
    files = {
        "full": text_of(STANDARD, full),
        "links": text_of(STANDARD, ([settings(NODES)], links, [])),
        "steps": text_of(STANDARD, filled(settings(2), one_link)),
        "shuffled": text_of(SHUFFLED, full),
    }
    for name, data in files.items():
        assert name == "links" or len(data) == SIZE
        (directory / f"{name}.session").write_bytes(data)


if __name__ == "__main__":
    main()
