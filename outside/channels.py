#!/usr/bin/env python3
"""Writes the calls of crates/arrivals/data/arrivals.txt and, by lists alone, the answers of crates/arrivals/stdout.

The rules, from docs/ENGINE.md: a put goes behind the waiting items, refused (31) when as many wait as the capacity; a
take removes the oldest (queue), the newest (stack) or the item at place pick modulo the number waiting (picked),
refused (32) when none waits.
"""
import pathlib
import random

CAPACITIES = (1, 5, 16)
PICKS = (0, 1, 2, 15, 16, 17, 255, 256, 65534, 65535)


def calls(seed, count):
    """Stretches in which puts are rare, as likely as takes, or frequent, so that channels run empty and full."""
    rng = random.Random(seed)
    while count > 0:
        share = rng.choice((0.1, 0.3, 0.5, 0.7, 0.9))
        for _ in range(min(count, rng.randrange(5, 60))):
            if rng.random() < share:
                yield "put", rng.randrange(65536)
            else:
                yield "take", rng.choice(PICKS) if rng.random() < 0.4 else rng.randrange(65536)
            count -= 1


PLACE = {
    "queue": lambda waiting, pick: 0,
    "stack": lambda waiting, pick: len(waiting) - 1,
    "picked": lambda waiting, pick: pick % len(waiting),
}


def answer(sort, waiting, capacity, word, number):
    if word == "put":
        if len(waiting) == capacity:
            return "!31"
        waiting.append(number)
        return f"+{len(waiting)}"
    if not waiting:
        return "!32"
    return str(waiting.pop(PLACE[sort](waiting, number)))


def main():
    crate = pathlib.Path(__file__).resolve().parent.parent / "crates" / "arrivals"
    listed = list(calls(20261117, 1500))
    (crate / "data").mkdir(parents=True, exist_ok=True)
    (crate / "data" / "arrivals.txt").write_text("".join(f"{w} {n}\n" for w, n in listed))
    lines = []
    for capacity in CAPACITIES:
        lines.append(f"capacity {capacity}")
        waiting = {sort: [] for sort in PLACE}
        for word, number in listed:
            lines.append(" ".join(answer(sort, waiting[sort], capacity, word, number) for sort in PLACE))
    (crate / "stdout").write_text("\n".join(lines) + "\n")


main()
