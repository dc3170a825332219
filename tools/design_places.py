#!/usr/bin/env python3
"""Lists the places in src/ that docs/DESIGN-PASS.md counts, a section for each of its points.

usage: python3 tools/design_places.py [POINT..]        at the top of the repository

A line is a candidate: the page says which of them are places, and why the others are none.
"""
import collections
import glob
import re
import sys


def sources():
    for path in sorted(glob.glob("crates/*/src/**/*.rt", recursive=True)):
        yield path[len("crates/"):], open(path, encoding="utf-8").read()


def functions(text):
    """Yields name, parameters, clauses and body of each function."""
    for m in re.finditer(r"^ *(?:pub )?(?:extern \"C\" )?fn (\w+)[^\n]*", text, re.M):
        indent = len(m.group(0)) - len(m.group(0).lstrip())
        close = re.compile(r"^ {%d}\}$" % indent, re.M).search(text, m.end())
        if not close:
            continue
        whole = text[m.start():close.end()]
        brace = re.search(r"^ {%d}\{$" % indent, whole, re.M)
        head, body = (whole[:brace.start()], whole[brace.end():]) if brace else whole.split("{\n", 1)
        yield m.group(1), head, body


def lines_with(pattern):
    rx = re.compile(pattern)
    for path, text in sources():
        for n, line in enumerate(text.split("\n"), 1):
            if rx.search(line):
                yield "%s:%d: %s" % (path, n, line.strip())


def point1():
    yield from lines_with(r"^(pub )?enum ")
    yield from lines_with(r"^    (pub )?(refusal|error|reason|event|cause|ok|found|answered|released|phase|network): (u8|bool),")
    for path, text in sources():
        for name, head, body in functions(text):
            if re.search(r"\) -> u8\b", head) and re.search(r"(refusal|error|fault|Fault|STEP_|DATA)", body):
                yield "%s: fn %s -> u8" % (path, name)
            if re.search(r"\) -> bool\b", head) and re.search(r"\bok: bool", head):
                yield "%s: fn %s(ok) -> bool" % (path, name)
    yield from lines_with(r"const [A-Z_0-9]+: u8 = ")


def shape(body):
    body = re.sub(r"//[^\n]*", "", body)
    body = re.sub(r"\b[A-Za-z_][A-Za-z_0-9:]*\b", lambda m: m.group(0) if m.group(0) in KEYWORDS else "x", body)
    body = re.sub(r"\b(0x[0-9A-Fa-f_]+|\d[\d_]*)\w*\b", "0", body)
    return re.sub(r"\s+", " ", body).strip()


KEYWORDS = {"if", "else", "match", "for", "while", "loop", "return", "let", "mut", "in", "as", "continue", "break"}


def point2():
    groups = collections.defaultdict(list)
    for path, text in sources():
        for name, head, body in functions(text):
            if len(shape(body)) > 30:
                groups[shape(body)].append("%s: fn %s" % (path, name))
    for names in groups.values():
        if len(names) > 1:
            yield " | ".join(names)


def point3():
    yield from lines_with(r"^\s*while ")
    yield from lines_with(r"^\s*for \w+ in \w+\.\.")


def point4():
    yield from lines_with(r"\b(wide|wide_word)\(")
    yield from lines_with(r"fn (network_of|network_byte|command_of|digit|digits|digit_of|hex_digit|is_sign|print\w*|write_usage)\b")
    yield from lines_with(r"(/|%) 256\b")


def point5():
    facts = collections.defaultdict(set)
    pairs = collections.defaultdict(set)
    for path, text in sources():
        for name, head, body in functions(text):
            for clause in re.findall(r"requires(?: \w+)? \{(.*?)\}\s*(?=ensures|requires|$)", head, re.S):
                for fact in clause.split("×"):
                    fact = re.sub(r"\s+", " ", fact).strip(" ()")
                    facts[fact].add("%s: %s" % (path, name))
            params = re.findall(r"\b(\w+): (?:&|[A-Za-z\[])", head.split("ensures")[0].split("requires")[0])
            params = [p for p in params if p not in ("rt", "out")]
            for i, a in enumerate(params):
                for b in params[i + 1:]:
                    pairs[(a, b)].add("%s: %s" % (path, name))
    for fact, places in sorted(facts.items(), key=lambda x: -len(x[1])):
        if len(places) >= 3:
            yield "%d contracts: %s" % (len(places), fact)
    for pair, places in sorted(pairs.items(), key=lambda x: -len(x[1])):
        if len(places) >= 4:
            yield "%d signatures: %s, %s" % (len(places), *pair)


def point6():
    yield from lines_with(r"^    (pub )?\w+: \[\w+; [\w:]+\],")
    yield from lines_with(r"let mut \w+ = \[.*; [\w:]+\];")
    for path, text in sources():
        for name, head, body in functions(text):
            if re.search(r"&(mut )?(\[u8\]|\[u8; \w+\]),\s*(count|n|length|len|size): usize", head):
                yield "%s: fn %s(slice, number)" % (path, name)


def point7():
    yield from lines_with(r"\b(add|gateway|broadcast): bool\b")
    yield from lines_with(r"const [A-Z_0-9]+: \[u64; \d+\]")


POINTS = [point1, point2, point3, point4, point5, point6, point7]

if __name__ == "__main__":
    wanted = [int(a) for a in sys.argv[1:]] or range(1, len(POINTS) + 1)
    for n in wanted:
        found = list(POINTS[n - 1]())
        print("point %d: %d lines" % (n, len(found)))
        for line in found:
            print("  " + line)
