#!/usr/bin/env python3
"""Brings the repository's own definitions and lemmas to today's spelling: words in snake case, types and modules as they are.

usage: python3 tools/respell.py [--look]     at the top, once, right after port.py

Renamed: each lower-case name of a file of specs/ or proofs/ that has a capital (varUIntOf: var_uint_of), and each name that such a file declares with a
dash (last-high: last_high) where it is declared, imported or named by its path. Names that Rattle makes keep their dashes. In the crates' files, the
must-fail edits and, between backticks, the documents. What would fall together with another name is in KEPT, under the name that it gets.
With --look nothing is written: the names are listed, and those that fall together.
"""

import collections
import glob
import json
import os
import re
import sys

ID = r"[A-Za-z_][\w'-]*"
# a name that would fall together with another of its file: the name it gets
KEPT = {"noFraction": "absent_fraction", "toEnd": "to_its_end", "items_Alike": "items_alike"}
# first, in these files: a lemma or constructor with the name that a definition gets
FIRST = {
    "crates/symbols/proofs/SystemBytes.antt": {"same_bytes": "same_bytes_lem"},
    "crates/symbols/proofs/Told.antt": {"same_bytes": "same_bytes_lem"},
    "crates/runs/proofs/Entries.antt": {"scalar_read": "scalar_read_lem"},
    "crates/writing/proofs/Back.antt": {"has_body": "has_body_lem"},
    "crates/timestamps/specs/TimestampMeaning.antt": {"too_wide": "numbers_too_wide", "out_of_range": "fields_out_of_range"},
    "crates/timestamps/proofs/Stamping.antt": {"too_wide": "numbers_too_wide", "out_of_range": "fields_out_of_range"},
}
MADE = re.compile(r"/proofs/.*/(Proof|Invariants|Answers)\.antt$")


def files():
    return sorted(p for p in glob.glob("crates/*/**/*.antt", recursive=True) + glob.glob("crates/*/src/**/*.rt", recursive=True) if "/out/" not in p)


def snake(name):
    if name in KEPT:
        return KEPT[name]
    name = name.replace("UInt", "Uint").replace("-", "_")
    return re.sub(r"([a-z0-9])([A-Z])", r"\1_\2", name).lower()


def code(text, antt):
    """The pieces of a text that may hold names: all but strings."""
    return re.split(r'("(?:[^"\\\n]|\\.)*")', text)


def is_camel(name):
    return name[0].islower() and re.search("[A-Z]", name) and "-" not in name


def declared(text, made):
    """The names with a dash that a file declares itself: of a proof of a function, those that are no goal's answer."""
    found = set()
    for m in re.finditer(r"(?m)^[ ]*(?:(?:pub|private|abbrev|unfoldable|opaque|irreducible)\s+)*(" + ID + r")\s*:(.*)", text):
        name, rest = m.group(1), m.group(2)
        if "-" in name and name[0].islower() and not (made and re.match(r"\s*(tie|goal)\.", rest)) and not re.search(r"statement M", rest):
            found.add(name)
    return found


def imported(text):
    """The names of a file's imports from the repository's own specs and proofs."""
    found = set()
    for m in re.finditer(r"(?m)^\s*(?:pub\s+)?(?:ghost\s+)?use\s+Rattle\.(\w+)\.(?:specs|proofs)((?:\.[\w'+-]+)*)\.\{([^}]*)\}", text):
        if os.path.isdir("crates/" + m.group(1)):
            for it in m.group(3).split(","):
                found.add(it.split(" as ")[0].strip())
    return found


def main(argv):
    look = argv == ["--look"]
    texts = {p: open(p, encoding="utf-8").read() for p in files()}
    for p, names in FIRST.items():
        texts[p] = re.sub(r"(?<![\w'.-])" + ID, lambda m: names.get(m.group(0), m.group(0)), texts[p])
    own = {p: declared(t, bool(MADE.search(p))) if p.endswith(".antt") else set() for p, t in texts.items()}
    dashed = set().union(*(d for p, d in own.items() if not MADE.search(p)))
    fields = set()
    for p, t in texts.items():
        if p.endswith(".antt") and not MADE.search(p):
            inside = False
            for line in t.splitlines():
                if re.match(r"\S", line):
                    inside = bool(re.match(r"(?:pub\s+)?record\b", line))
                m = inside and re.match(r"[ ]+(?:pub\s+)?(" + ID + r")\s*:", line)
                if m and "-" in m.group(1):
                    fields.add(m.group(1))
    # a name with a dash that would have another's name, or a function's, keeps its dash
    plain = {snake(w) for t in texts.values() for w in re.findall(ID, t) if is_camel(w)}
    for p, t in texts.items():
        if p.endswith(".antt") and not MADE.search(p):
            plain |= {m.group(1) for m in re.finditer(r"(?m)^[ ]*(?:(?:pub|private|abbrev|unfoldable|opaque|irreducible)\s+)*(" + ID + r")\s*:", t)}
        if p.endswith(".rt"):
            plain |= set(re.findall(r"\bfn\s+(\w+)", t))
    keeps = {w for w in dashed | fields | set().union(*own.values()) if snake(w) in plain}
    table, clash = {}, []
    for p, t in texts.items():
        names = (own[p] | (imported(t) & dashed) | fields) - keeps
        words = set(re.findall(ID, t))
        names |= {w for w in words if is_camel(w)}

        def turn(m):
            w = m.group(0)
            return snake(w) if w in names else w

        with open(p, encoding="utf-8") as f:
            was = f.read()
        for w in sorted(words & names):
            table[w] = snake(w)
            if snake(w) in words:
                clash.append((p, w, snake(w)))
        new = "".join(s if i % 2 else re.sub(r"(?<![\w'-])" + ID, turn, s) for i, s in enumerate(code(t, p.endswith(".antt"))))
        if new != was and not look:
            with open(p, "w", encoding="utf-8") as f:
                f.write(new)
    together = collections.defaultdict(set)
    for w, s in table.items():
        together[s].add(w)
    if look:
        print(json.dumps(table, indent=0))
        for c in clash:
            print("in one file: %s: %s beside %s" % c)
        for s, ws in sorted(together.items()):
            if len(ws) > 1:
                print("together:", s, sorted(ws))
        return 0
    camel = {w: s for w, s in table.items() if is_camel(w)}
    # the edits and the documents, by the names that were declared
    for p in sorted(glob.glob("crates/*/must-fail/*")):
        t = open(p, encoding="utf-8").read()
        new = re.sub(r"(?<![\w'-])" + ID, lambda m: table.get(m.group(0), m.group(0)), t)
        if new != t:
            open(p, "w", encoding="utf-8").write(new)
    for p in ["README.md", "CHANGELOG.md"] + sorted(glob.glob("docs/**/*.md", recursive=True)):
        t = open(p, encoding="utf-8").read()
        turn = lambda m: re.sub(r"(?<![\w'-])" + ID, lambda k: camel.get(k.group(0), k.group(0)), m.group(0))
        new = re.sub(r"`[^`\n]*`", turn, t)
        if new != t:
            open(p, "w", encoding="utf-8").write(new)
    return 0


if __name__ == "__main__":
    raise SystemExit(main(sys.argv[1:]))
