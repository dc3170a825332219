#!/usr/bin/env python3
"""Brings the definitions, lemmas and record fields of specs/ and proofs/ to snake case.

usage: python3 tools/snake_names.py [--check]        at the top of the repository

A name that is declared in crates/*/specs/*.antt or crates/*/proofs/*.antt, begins with a small letter and has a capital or a dash becomes
snake case: headerSize is header_size, word-split is word_split. NAMES below has the names for which that would be taken already. A name
is turned wherever it stands as a whole word: in .antt files, in the clauses and `ghost use` lines of .rt files, in must-fail edits of specs/
and proofs/, and in comments, if it has a capital or stands between backticks: other words there are English. A function of src/ keeps its name. The script stops, and changes nothing, if two names would fall together or a new
name stands in a file already. A second run changes nothing. --check only lists the names.
"""

import glob
import re
import sys

WORD = r"[^\s(){}.;,@\"«»⌜⌝`]+"
DECLARED = re.compile(rf"^\s*(?:(?:abbrev|unfoldable|pub) +)*({WORD}(?: +{WORD})*?) +:(?= |$)", re.M)
OLD = re.compile(r"[a-z][^\s]*")

# lemmas that would have the name of a definition or of another lemma
LEMMAS = """
answer-event at-end bitmap-bytes block-sums book-bytes book-ok byte-formed call-result check-answer check-byte confirmation-length crc-byte
crc-bytes direction-max entries-end entry-bytes entry-lamps entry-limit entry-memories first-size guide-framed lamp-changed lamp-formed
late-enough lights-walk list-bytes list-request location-at location-bytes machine-lamp machine-level machine-seconds not-released os-effect
pdata-length peripheral-effect peripheral-lamps peripheral-memories places-ok request-effect rest-lamps rest-memories result-at scene-at
scene-of selected-requests send-answer step-bytes task-data task-walk total-length wait-max
"""

# fields and definitions that would have the name of a definition, of a field or of a parameter
NAMES = {
    "limit-ok": "limit_valid",
    "settings-ok": "settings_rule",
    "no-fault": "fault_free",
    "well-formed": "is_well_formed",
    "eeprom-size": "eeprom_sized",
    "external-size": "external_sized",
    "ram-size": "ram_sized",
    "handedOut": "handed_out_result",
    "levelAt": "level_of_lamp",
    "responseHops": "hops_of_response",
    "blockSize": "size_of_block",
    "initialLow": "initial_low_of",
} | {name: name.replace("-", "_") + "_lem" for name in LEMMAS.split()}

# names in snake case already that a definition now takes: the files, the old name, the new one. Proofs of single functions have steps of
# these names, which stay.
MOVED = [
    (r"/(specs|proofs)/\w+\.antt$", "node_ok", "node_valid"),
    (r"/effects/proofs/\w+\.antt$", "step_ok", "step_walk_ok"),
    (r"\.antt$", "entry_length", "entry_length_lem"),
    (r"/batch/.*\.antt$", "head_bytes", "head_bytes_lem"),
    (r"/uart/proofs/Receivers\.antt$", "in_frame", "in_frame_lem"),
    (r"/uart/proofs/Receiving\.antt$", "in_frame", "inside"),
    (r"/uart/.*\.antt$", "too_long", "too_long_lem"),
    (r"/memory/.*\.antt$", "too_long", "too_long_lem"),
    (r"/memory/.*\.antt$", "past_end", "past_end_lem"),
]


def snake(name):
    if name in NAMES:
        return NAMES[name]
    return re.sub(r"(?<=[a-z0-9'])([A-Z])", r"_\1", name).lower().replace("-", "_")


def declared():
    names = {}
    for path in sorted(glob.glob("crates/*/specs/*.antt") + glob.glob("crates/*/proofs/*.antt")):
        with open(path, encoding="utf-8") as f:
            text = f.read()
        text = re.sub(r"(?m)--.*$", "", text)
        for m in DECLARED.finditer(text):
            for name in m.group(1).split():
                if OLD.fullmatch(name) and re.search(r"[A-Z-]", name) and re.fullmatch(r"[\w'-]+", name):
                    names.setdefault(name, set()).add(path)
    return names


def turn(line, table):
    code, sign, comment = re.match(r"((?:(?!--(?= )|// |# ).)*)(--|//|#)?(.*)", line, re.S).groups()
    names = re.compile(WORD)
    code = names.sub(lambda m: table.get(m.group(), m.group()), code)
    comment = re.sub(r"`[^`]*`", lambda m: names.sub(lambda n: table.get(n.group(), n.group()), m.group()), comment)
    comment = names.sub(lambda m: table.get(m.group(), m.group()) if re.search("[A-Z]", m.group()) else m.group(), comment)
    return code + (sign or "") + comment


def files():
    return sorted(
        glob.glob("crates/*/src/**/*.rt", recursive=True)
        + glob.glob("crates/*/specs/**/*.antt", recursive=True)
        + glob.glob("crates/*/proofs/**/*.antt", recursive=True)
        + glob.glob("crates/*/must-fail/*.edit")
    )


def main(argv):
    table = {name: snake(name) for name in declared()}
    by_new = {}
    for old, new in table.items():
        by_new.setdefault(new, []).append(old)
    bad = [f"{' and '.join(olds)} would both be {new}" for new, olds in by_new.items() if len(olds) > 1]
    pattern = re.compile(WORD)
    texts, standing = {}, {}
    done = not table
    for path in files():
        with open(path, encoding="utf-8") as f:
            texts[path] = f.read()
        for where, old, new in MOVED if not done else []:
            if re.search(where, path):
                texts[path] = re.sub(rf"(?<![\\w'-]){old}(?![\\w'-])", new, texts[path])
        if re.search(r"/(specs|proofs)/\w+\.antt$", path):
            for word in set(pattern.findall(re.sub(r"(?m)^use .*$|--.*$", "", texts[path]))):
                standing.setdefault(word, []).append(path)
    for new, olds in by_new.items():
        if new in standing:
            bad.append(f"{olds[0]} would be {new}, which stands in {', '.join(standing[new][:4])}")
    if bad:
        print("\n".join(sorted(bad)))
        return 1
    if argv:
        for old, new in sorted(table.items()):
            print(f"{old}\t{new}")
        return 0
    turned = 0
    for path, text in texts.items():
        if path.endswith(".edit") and not re.search(r"(?m)^file: (specs|proofs)/", text):
            continue
        now = "".join(turn(line, table) for line in text.splitlines(keepends=True))
        with open(path, encoding="utf-8") as f:
            before = f.read()
        if now != before:
            turned += 1
            with open(path, "w", encoding="utf-8") as f:
                f.write(now)
    print(f"{len(table)} names, {turned} files")
    return 0


if __name__ == "__main__":
    raise SystemExit(main(sys.argv[1:]))
