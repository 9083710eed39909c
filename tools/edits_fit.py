#!/usr/bin/env python3
"""Says of each must-fail edit whether it fits: its file is there, and each 'old:' text stands there exactly once.

usage: python3 tools/edits_fit.py [FOLDER..]     (crates/*/must-fail and must-fail-more/* by default)
"""
import glob
import os
import sys

TOP = os.path.dirname(os.path.dirname(os.path.realpath(__file__)))


def parts(path):
    """The file of an edit, and its pairs of old and new text."""
    name, pairs, old = None, [], None
    for line in open(path, encoding="utf-8").read().split("\n"):
        if line.startswith("file: "):
            name = line[len("file: "):]
        elif line.startswith("old: "):
            old = line[len("old: "):]
        elif line.startswith("new: ") or line == "new:":
            pairs.append((old, line[len("new: "):]))
    return name, pairs


def crate_of(path):
    folder = os.path.dirname(path)
    return os.path.basename(os.path.dirname(folder) if os.path.basename(folder) == "must-fail" else folder)


def misfit(path):
    name, pairs = parts(path)
    file = os.path.join(TOP, "crates", crate_of(path), name or "")
    if not name or not os.path.isfile(file):
        return "no file " + str(name)
    text = open(file, encoding="utf-8").read()
    for old, new in pairs:
        n = text.count(old)
        if n != 1:
            return "%d times: %s" % (n, old)
        text = text.replace(old, new)
    return None


def main(folders):
    folders = folders or sorted(glob.glob(os.path.join(TOP, "crates/*/must-fail")) + glob.glob(os.path.join(TOP, "must-fail-more/*/")))
    count, bad = 0, 0
    for folder in folders:
        for path in sorted(glob.glob(os.path.join(folder, "*.edit"))):
            count += 1
            said = misfit(path)
            if said:
                bad += 1
                print(os.path.relpath(path, TOP) + ": " + said)
    print("%d edits, %d do not fit" % (count, bad))
    return 1 if bad else 0


if __name__ == "__main__":
    sys.exit(main(sys.argv[1:]))
