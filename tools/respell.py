#!/usr/bin/env python3
"""Brings the repository's own definitions and lemmas to snake case, as PORTING.md asks, after port.py.

usage: python3 tools/respell.py table    writes tools/respell.tsv, old and new name, from what the .antt files define
       python3 tools/respell.py turn     rewrites crates/ and the edits beside them by that table: once, since a second run would turn names that the first made
       python3 tools/respell.py text F.. rewrites the names in the text files F, where they stand in backticks

Names of functions of src/, strings and the names that the check makes (a goal's) stay as they are.
"""
import collections
import os
import re
import sys

HERE = os.path.dirname(os.path.realpath(__file__))
TOP = os.environ.get("RESPELL_TOP", os.path.dirname(HERE))
TABLE = os.path.join(HERE, "respell.tsv")
WORD = r"[A-Za-z_₀-₉'][A-Za-z0-9_'₀-₉]*(?:-[A-Za-z0-9_'₀-₉]+)*"
OWN = re.compile(r"^\s*(?:pub )?(?:ghost )?use Rattle\.(\w+)\.")


def snake(name):
    s = re.sub(r"(?<=[a-z0-9'])([A-Z])", lambda m: "_" + m.group(1).lower(), name)
    s = re.sub(r"([A-Z])", lambda m: m.group(1).lower(), s)
    return s.replace("-", "_")


def files(ends):
    for base in ("crates", "must-fail-more"):
        for folder, dirs, names in os.walk(os.path.join(TOP, base)):
            dirs[:] = sorted(d for d in dirs if d not in ("out", "data"))
            for n in sorted(names):
                if n.endswith(ends):
                    yield os.path.join(folder, n)


def library():
    """Names that are imported from a library: they are not the repository's."""
    own = set(os.listdir(os.path.join(TOP, "crates")))
    got = set()
    for p in files((".antt", ".rt")):
        for line in open(p, encoding="utf-8"):
            m = re.match(r"^\s*(?:pub )?(?:ghost )?use ([\w.]+)\.(?:\{(.*)\}|(" + WORD + r"))", line)
            if not m:
                continue
            parts = m.group(1).split(".")
            if parts[0] == "Rattle" and parts[1] in own:
                continue
            for n in re.findall(WORD, m.group(2) or m.group(3)):
                got.add(n)
    return got


def defined():
    got, goals = collections.Counter(), collections.Counter()
    for p in files(".antt"):
        in_data = False
        for line in open(p, encoding="utf-8"):
            code = line.split("-- ")[0]
            if re.match(r"\s*(?:pub )?data ", code):
                in_data = True
                indent = len(code) - len(code.lstrip())
                continue
            if code.strip() and in_data and len(code) - len(code.lstrip()) <= indent:
                in_data = False
            m = re.match(r"\s*(?:abbrev |unfoldable |instance |pub )*((?:" + WORD + r" )+): *(.*)$", code)
            if m:
                names = m.group(1).split()
                if not in_data and any(n in ("record", "data") for n in names):
                    continue
                for n in names:
                    if re.fullmatch(r"tie\..*", m.group(2).strip()):
                        goals[n] += 1
                    else:
                        got[n] += 1
    return got, goals


def table():
    lib = library()
    got, goals = defined()
    rows = {}
    for n in got:
        if not (n[0].islower() and ("-" in n or re.search("[A-Z]", n))):
            continue
        if n in lib or re.fullmatch(r".*-(requires|ensures)(-\d+)?", n) and n in goals:
            continue
        if re.match(r"(returns|invariant|decreases|loop|enum-known|enum-told|slice-aggregate|shared-slice|array-)(-|$)", n) and n in goals:
            continue
        rows[n] = snake(n)
    words = collections.Counter()
    for p in files(".antt"):
        words.update(re.findall(WORD, open(p, encoding="utf-8").read()))
    back = collections.defaultdict(set)
    for a, b in rows.items():
        back[b].add(a)
    for b, olds in sorted(back.items()):
        # A lemma that would have its definition's name gets `_lem`.
        camel = [a for a in olds if "-" not in a]
        if len(camel) > 1:
            sys.exit("two definitions fall together: " + " ".join(camel))
        if len(olds) > 1 or b in got:
            for a in olds:
                if "-" in a:
                    rows[a] = b + "_lem"
            if camel and b in got:
                rows[b] = b + "_lem"
    # A field may have a definition's name; and this one has no definition beside it.
    rows["baseline-results"] = "baseline_results"
    rows.pop("taken_out", None)
    values = collections.Counter(rows.values())
    for b, n in values.items():
        if n > 1 or (b in got and b not in rows):
            print("falls together:", b)
    with open(TABLE, "w", encoding="utf-8") as f:
        for a in sorted(rows):
            f.write(a + "\t" + rows[a] + "\n")
    print(len(rows), "names")


def load():
    return dict(l.rstrip("\n").split("\t") for l in open(TABLE, encoding="utf-8"))


def turn_code(text, rows):
    """Names in code; in a comment those in camel case, and those with a dash in backticks."""
    out = []
    for line in text.split("\n"):
        m = re.search(r"(^|\s)(--|//)(\s|$)", line)
        cut = m.start(2) if m else len(line)
        code, note = line[:cut], line[cut:]
        pieces = re.split(r'("(?:[^"\\]|\\.)*")', code)
        for i in range(0, len(pieces), 2):
            pieces[i] = re.sub(WORD, lambda w: rows.get(w.group(0), w.group(0)), pieces[i])
        note = re.sub(WORD, lambda w: rows.get(w.group(0), w.group(0)) if "-" not in w.group(0) else w.group(0), note)
        note = re.sub(r"`[^`]*`", lambda q: re.sub(WORD, lambda w: rows.get(w.group(0), w.group(0)), q.group(0)), note)
        out.append("".join(pieces) + note)
    return "\n".join(out)


def turn():
    rows = load()
    for p in files((".antt", ".rt", ".edit")):
        old = open(p, encoding="utf-8").read()
        new = turn_code(old, rows)
        if new != old:
            open(p, "w", encoding="utf-8").write(new)


def text(names):
    rows = load()
    for p in names:
        old = open(p, encoding="utf-8").read()
        new = re.sub(r"`[^`\n]*`", lambda q: re.sub(WORD, lambda w: rows.get(w.group(0), w.group(0)), q.group(0)), old)
        if new != old:
            open(p, "w", encoding="utf-8").write(new)


if __name__ == "__main__":
    if sys.argv[1:] == ["table"]:
        table()
    elif sys.argv[1:] == ["turn"]:
        turn()
    elif sys.argv[1:2] == ["text"]:
        text(sys.argv[2:])
    else:
        sys.exit(__doc__)
