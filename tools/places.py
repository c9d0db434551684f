#!/usr/bin/env python3
"""Lists the places in crates/*/src that an older form of the language may have left, point by point.

    python3 tools/places.py            every point, with the number of places of each
    python3 tools/places.py 3          one point
    python3 tools/places.py --counts   the numbers only

It reads the tree below the folder it is called from, so that an older commit can be counted with today's script:
    git worktree add /tmp/before COMMIT; cd /tmp/before; python3 PATH/tools/places.py --counts
A line is a place to look at, not a verdict; docs/DESIGN-PASS.md says what became of each.
"""
import collections
import glob
import re
import sys

POINTS = {
    1: "matches that Option and Result have a method for, flags beside a value, numbers for kinds or refusals",
    2: "twins: functions whose bodies are equal but for names, types, strings and numbers",
    3: "loops over an index, by enumerate, or with a place that is passed on",
    4: "conversion, comparison and printing by hand; types without Debug, PartialEq and Eq; faults without Display",
    5: "requirements and pairs of parameters that stand in three or more functions",
    6: "fields that are buffers, lengths or arrays; vectors of numbers or flags; patterns of bytes that spell a word",
    7: "switches on which step to run, function pointers, dyn",
    8: "answers and invariants in proofs/",
}

LINES = {
    1: r"Result<[^{]*, u8>|-> u8 \{|&'static str, usize|match column|let mut \w+ = (true|false);|const NO_\w+:|^\s+Nothing,"
    r"|(Err|Ok|Some)\(\w+\) => (Err|Ok|Some|0|unreachable|fault|exponent|sum\b|\()|None => (Err|None|Some|false)|_ => (false|None),"
    r"|if let (Err|Ok|Some)\(\w+\) =|let (Some|Ok)\([^=]*= .* else \{|\bNone$",
    3: r"enumerate\(\)|\bwhile |\bloop \{|\bfor \w+ in [^{]*\.\.|end = put_",
    4: r"as_slice\(\)|\bas (u8|u16|u32|u64|usize)\b|fn (of|value)\(|fn (put|display)_\w+\(|\*\w+ [<>]=? b'|b'0' <= \*|_MARK \|\|"
    r"|Err\(fault\) => (fault\.number|\(\"!\")",
    6: r"^ +(pub(\(crate\))? )?\w+: (usize|u16|u8|bool|Vec<\w+>|\[\w+; \w+\]|&'a mut \[.*),$|&mut Vec<|\[b'\w', ",
    7: r"\bmatch (column|call|event|\(self)|\bfn\(|\bdyn |impl Fn",
}


def sources():
    return sorted(glob.glob("crates/*/src/**/*.rt", recursive=True))


def functions(text):
    """The functions of a source text: name, signature, clauses, body, line."""
    out = []
    for m in re.finditer(r"^( *)(?:pub(?:\(crate\))? )?(?:extern \"C\" )?fn (\w+)", text, re.M):
        start = m.start()
        rest = text[start:]
        brace = re.search(r"^%s\{$|\) (?:-> [^\n]*)?\{$|\{$" % m.group(1), rest, re.M)
        end = re.search(r"^%s\}$" % m.group(1), rest, re.M)
        if not brace or not end or end.start() < brace.start():
            continue
        head, body = rest[: brace.end()], rest[brace.end() : end.start()]
        out.append((m.group(2), head, body, text.count("\n", 0, start) + 1))
    return out


def shape(body):
    body = re.sub(r"//[^\n]*", "", body)
    body = re.sub(r'b?"[^"]*"|b\'[^\']*\'', "S", body)
    body = re.sub(r"\b\d[\d_]*(u8|u16|u32|u64|usize)?\b", "N", body)
    body = re.sub(r"\bu(8|16|32|64|size)\b", "T", body)
    body = re.sub(r"\b[A-Z]\w*\b", "T", body)
    names = {}
    keep = {"if", "else", "for", "in", "while", "loop", "match", "return", "let", "mut", "self", "as", "Ok", "Err", "Some", "None"}
    def name(m):
        w = m.group(0)
        return w if w in keep else names.setdefault(w, "v%d" % len(names))
    body = re.sub(r"\b[a-z_]\w*\b", name, body)
    return re.sub(r"\s+", " ", body).strip()


def twins():
    groups = collections.defaultdict(list)
    for path in sources():
        for name, head, body, line in functions(open(path).read()):
            s = shape(body)
            if len(s) > 12:
                groups[s].append("%s:%d: fn %s" % (path, line, name))
    for g in groups.values():
        if len(g) > 1:
            yield from g


def repeated():
    clauses = collections.defaultdict(set)
    pairs = collections.defaultdict(set)
    for path in sources():
        if path.endswith("tests.rt"):
            continue
        for name, head, body, line in functions(open(path).read()):
            where = "%s:%d fn %s" % (path, line, name)
            for m in re.finditer(r"^\s*(requires|ensures)\*?(?: \w+)? \{ (.*) \}$", head, re.M):
                c = re.sub(r"\b(order|steps|columns|line|words|self)\b(\.(now|old|new))?", "x", m.group(2))
                clauses[(m.group(1), re.sub(r"\b\d+\b", "N", c))].add(where)
            params = re.findall(r"(\w+): ([^,()]+?)(?=,|\)|\n)", head.split("requires")[0].split("ensures")[0])
            for i, a in enumerate(params):
                for b in params[i + 1 :]:
                    pairs[(a, b)].add(where)
    for (kind, c), where in sorted(clauses.items()):
        if len(where) > 2 and kind == "requires":
            yield "%s { %s } in %d functions" % (kind, c, len(where))
    for (a, b), where in sorted(pairs.items()):
        if len(where) > 2:
            yield "(%s: %s, %s: %s) in %d functions" % (a + b + (len(where),))


def derives():
    texts = {path: open(path).read() for path in sources()}
    everything = "\n".join(texts.values())
    for path, text in texts.items():
        if path.endswith("tests.rt"):
            continue
        for m in re.finditer(r"((?:^#\[[^\n]*\]\n)*)^(?:pub )?(struct|enum) (\w+)", text, re.M):
            attributes, kind, name = m.groups()
            where = "%s:%d: %s %s" % (path, text.count("\n", 0, m.start(2)) + 1, kind, name)
            if "Copy" in attributes and "PartialEq" not in attributes:
                yield where + ": no Debug, PartialEq, Eq, Hash"
            if re.search(r"(Fault|Error)$", name) and "fmt::Display for %s " % name not in everything:
                yield where + ": no Display"


def answers():
    for path in sorted(glob.glob("crates/*/proofs/**/*.antt", recursive=True)):
        for i, l in enumerate(open(path)):
            if re.match(r"pub [^ ]+ : goal\.", l) or re.match(r"abbrev pub [^ ]+ : goal\.", l):
                yield "%s:%d: %s" % (path, i + 1, l.strip())


def places(point):
    if point in LINES:
        for path in sources():
            for i, l in enumerate(open(path)):
                if re.search(LINES[point], l) and not l.lstrip().startswith("//"):
                    yield "%s:%d: %s" % (path, i + 1, l.strip())
    if point == 2:
        yield from twins()
    if point == 4:
        yield from derives()
    if point == 5:
        yield from repeated()
    if point == 8:
        yield from answers()


def main():
    counts = "--counts" in sys.argv
    chosen = [int(a) for a in sys.argv[1:] if a.isdigit()] or sorted(POINTS)
    for point in chosen:
        found = list(places(point))
        print("%d. %s: %d" % (point, POINTS[point], len(found)))
        if not counts:
            for f in found:
                print("   ", f)


main()
