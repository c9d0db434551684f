#!/usr/bin/env python3
"""Respells this repository's own definitions and lemmas: facts and types in camel case, all else in snake case.

    python3 tools/respell.py [--list]

Run once, at the top of the repository, after the toolchain's own port script. A name is one that a file of specs/ or
proofs/ declares and that has a dash in it; the names of goals, which the toolchain makes, stay. A name is replaced
wherever it stands as a whole word in specs/, proofs/, in the clauses of src/ and in the edits of must-fail/; a word of a
comment only where no English word is meant, which is where it begins with a capital letter or stands in backticks.
Prints the names that would fall together and the comments to look at.
"""
import re
import sys
from pathlib import Path

TOP = Path(__file__).resolve().parent.parent
CRATES = TOP / "crates"
DECL = re.compile(r"^\s*(?:(?:pub|abbrev|unfoldable|private|data|record|mutual|ruleset|deriving)\s+)*([^\s:(){}]+)(?:\s+[({][^:]*:.*)?\s*:(?:\s|$)")
GOAL = re.compile(r":\s*goal\.")
TOKEN = re.compile(r"[^\s(){}\[\];,.|\"`@]+")
ARG = re.compile(r"[({]([^():{}]+):")


def antt_files():
    for crate in sorted(CRATES.iterdir()):
        for part in ("specs", "proofs"):
            yield from sorted((crate / part).rglob("*.antt"))


def code_of(line):
    """The line without its comment."""
    if line.lstrip().startswith("--"):
        return ""
    at = line.find(" -- ")
    return line if at < 0 else line[:at]


def declared(path):
    names = set()
    for line in path.read_text().splitlines():
        code = code_of(line)
        if not code.strip() or code.lstrip().startswith(("use ", "ghost use ", "|", "λ", "let ", "elim")):
            continue
        if GOAL.search(code):
            continue
        m = DECL.match(code)
        if m and m.group(1) not in ("λ", "let", "module"):
            names.add(m.group(1))
        for group in ARG.findall(code):
            names.update(w for w in group.split() if "-" in w)
    return names


def respelled(name):
    if name[0].isupper():
        parts = name.split("-")
        return "".join(p[:1].upper() + p[1:] for p in parts)
    return name.replace("-", "_")


def main():
    listing = "--list" in sys.argv
    every, goals = set(), set()
    for path in antt_files():
        every |= declared(path)
        for line in path.read_text().splitlines():
            for m in re.finditer(r"goal\.([^\s(){}]+)", line):
                goals.add(m.group(1))
    operator = re.compile(r"[a-zA-Z0-9ℕ]-[a-zA-Z0-9ℕ]|[a-zA-Z]-'|≢-|-≢")
    names = {n for n in every if operator.search(n) and n not in goals}
    table = {n: respelled(n) for n in names}
    texts = {p: p.read_text() for p in antt_files()}
    whole = {t for text in texts.values() for t in TOKEN.findall(text)}
    for old, new in sorted(table.items()):
        if new in whole:
            print(f"falls together: {old} -> {new}")
        if sum(1 for v in table.values() if v == new) > 1:
            print(f"twice made: {old} -> {new}")
    if listing:
        for old, new in sorted(table.items()):
            print(old, new)
        return

    def replace(text, only_sure=False):
        def one(m):
            word = m.group(0)
            core = word.rstrip("?:!")
            if core not in table:
                return word
            before = text[: m.start()]
            if only_sure and not (core[0].isupper() or before.endswith("`")):
                return word
            return table[core] + word[len(core):]
        return TOKEN.sub(one, text)

    def mend(path, comment, ghost_only):
        out, changed, depth = [], False, 0
        for number, line in enumerate(path.read_text().splitlines(keepends=True), 1):
            at = line.find(comment)
            code, tail = (line, "") if at < 0 or "://" in line else (line[:at], line[at:])
            new_tail = replace(tail, only_sure=True)
            for word in TOKEN.findall(tail):
                if word in table and not word[0].isupper() and f"`{word}" not in tail:
                    print(f"comment: {path.relative_to(TOP)}:{number}: {word}")
            if ghost_only and not re.search(r"ghost|ensures|requires|law", code) and not depth:
                new = code
            else:
                new = replace(code)
            out.append(new + new_tail)
            changed |= out[-1] != line
        if changed:
            path.write_text("".join(out))

    for path in antt_files():
        mend(path, "--", False)
    for crate in sorted(CRATES.iterdir()):
        for path in sorted((crate / "src").rglob("*.rt")):
            mend(path, "//", True)
        for path in sorted((crate / "must-fail").glob("*.edit")):
            mend(path, "//", False)


main()
