#!/usr/bin/env python3
"""Lists the places in crates/*/src that docs/DESIGN-PASS.md counts, a line each: CRATE FILE:LINE WHAT.

usage: python3 tools/design_places.py POINT [TREE]     (TREE is the repository by default)

POINT is one of
  option    an enum of the shape of Option or Result: two cases of which one is bare, or a case that says that there is no value
  flag      a field or a parameter of type bool
  number    a literal number (or a constant of a table) that stands for a kind, a refusal or for "none"
  while     a `while` loop
  by-hand   a function over an enum that only tells its cases apart, or that writes out equality or a conversion of plain fields
  group     a list of three or more parameters, names and types, that stands in three or more functions
  slices    a function that takes two or more slices or arrays of one length
  array     a struct with an array field
  fact      a fact of an `ensures` that stands in three or more contracts
  step      a parameter that switches a step on or off, and a function that only hands on to one of others by a case
"""
import collections
import glob
import os
import re
import sys

NONE = r"Absent|None|Nothing|Missing|Malformed|NotConverged|Unavailable|Unfit|Unfitted|NoneMoved|Exhausted|NonFiniteInformation"


def sources(tree):
    for path in sorted(glob.glob(os.path.join(tree, "crates", "*", "src", "*.rt"))):
        with open(path, encoding="utf-8") as file:
            yield path, file.read()


def bare(text):
    return re.sub(r"//[^\n]*", "", text)


def enums(text):
    for m in re.finditer(r"^(?:pub )?enum (\w+)[^{]*\{(.*?)^\}", text, re.M | re.S):
        cases, depth, last = [], 0, ""
        for c in bare(m.group(2)):
            depth += c in "({["
            depth -= c in ")}]"
            if c == "," and depth == 0:
                cases.append(last.strip())
                last = ""
            else:
                last += c
        if last.strip():
            cases.append(last.strip())
        yield m, m.group(1), [re.sub(r"\s+", " ", c) for c in cases]


def functions(text):
    for m in re.finditer(r"^( *)(?:pub )?(?:const )?(?:extern \"C\" )?fn (\w+)(?:<[^(]*>)?\(", text, re.M):
        depth, i = 1, m.end()
        while depth:
            depth += text[i] == "("
            depth -= text[i] == ")"
            i += 1
        params, last, depth = [], "", 0
        for c in bare(text[m.end():i - 1]):
            depth += c in "(<["
            depth -= c in ")>]"
            if c == "," and depth == 0:
                params.append(re.sub(r"\s+", " ", last.strip()))
                last = ""
            else:
                last += c
        if last.strip():
            params.append(re.sub(r"\s+", " ", last.strip()))
        end = text.find("\n" + m.group(1) + "}\n", i)
        yield m, m.group(2), [p for p in params if p], text[i:end if end > 0 else len(text)]


def at(path, text, pos, what, tree):
    rel = os.path.relpath(path, tree)
    return "%s %s:%d %s" % (rel.split(os.sep)[1], rel, text.count("\n", 0, pos) + 1, what)


def places(point, tree):
    groups, facts = collections.defaultdict(list), collections.defaultdict(list)
    for path, text in sources(tree):
        if point == "option":
            for m, name, cases in enums(text):
                plain = [c for c in cases if re.fullmatch(r"\w+", c)]
                none = [c for c in cases if re.match(r"(?:%s)\b" % NONE, c)]
                if (len(cases) == 2 and len(plain) == 1) or (none and len(cases) > len(plain)):
                    yield at(path, text, m.start(), "%s { %s }" % (name, ", ".join(cases)), tree)
        elif point == "flag":
            for m in re.finditer(r"^ +(?:pub )?(\w+): (?:&mut )?\[?bool\b", text, re.M):
                yield at(path, text, m.start(), "field " + m.group(1), tree)
            for m, name, params, _ in functions(text):
                for p in params:
                    if re.search(r": *(?:&(?:'\w+ )?(?:mut )?)?\[?bool\b", p):
                        yield at(path, text, m.start(), "%s(%s)" % (name, p), tree)
        elif point == "number":
            patterns = (r"\b(?:refusal|declined|stops|Refused|Faulty)\([^()]*\b\d+\b", r"^ +\d+ => ", r"^pub const \w+: usize = \d+;",
                        r"\b(?:k|row|i|j|number|solver|n|m|o|f) (?:==|!=|<|>|>=|<=) \d+\b", r"^ +return (?:0|16|9|8|COUNT);$")
            for pattern in patterns:
                for m in re.finditer(pattern, bare(text), re.M):
                    yield at(path, bare(text), m.start(), re.sub(r"\s+", " ", m.group(0).strip()), tree)
        elif point == "while":
            for m in re.finditer(r"^ *while .*$", text, re.M):
                yield at(path, text, m.start(), m.group(0).strip(), tree)
        elif point == "by-hand":
            for m, name, params, body in functions(text):
                code = body[body.find("\n{") + 2:] if "\n{" in body else body
                arms = re.findall(r"=> *([^\n]*)", code)
                plain = [a for a in arms if re.fullmatch(r"(?:true|false|\d+|words::\w+),?|words::\w+", a.strip())]
                if arms and len(plain) == len(arms) and re.match(r"\s*(?:let [^;]*;\s*)?match \w", code.strip()):
                    yield at(path, text, m.start(), name + ": cases told apart", tree)
                elif re.fullmatch(r"\s*\(\w+\.\w+ == \w+\.\w+\)( & \(\w+\.\w+ == \w+\.\w+\))+\s*", code):
                    yield at(path, text, m.start(), name + ": equality of fields", tree)
        elif point == "group":
            for m, name, params, _ in functions(text):
                names = [re.sub(r"'\w+ ", "", p) for p in params if ":" in p]
                for i in range(len(names)):
                    for j in range(i + 3, len(names) + 1):
                        groups[tuple(names[i:j])].append(at(path, text, m.start(), name, tree))
        elif point == "slices":
            for m, name, params, _ in functions(text):
                lent = [p for p in params if re.search(r": *&(?:'\w+ )?(?:mut )?\[(?:f64|bool)", p)]
                if len(lent) > 1:
                    yield at(path, text, m.start(), "%s(%s)" % (name, ", ".join(lent)), tree)
        elif point == "array":
            for m in re.finditer(r"^(?:pub )?struct (\w+)[^{;]*\{(.*?)^\}", text, re.M | re.S):
                fields = re.findall(r"(\w+): \[(\w+); (\w+)\]", bare(m.group(2)))
                if fields:
                    yield at(path, text, m.start(), "%s { %s }" % (m.group(1), ", ".join("%s: [%s; %s]" % f for f in fields)), tree)
        elif point == "fact":
            for m in re.finditer(r"^ +ensures(?: \w+)? \{(.*)\}$", text, re.M):
                for fact in re.findall(r"\b[\w.]+ ≤ \d+ →", m.group(1)):
                    facts[fact].append(at(path, text, m.start(), fact, tree))
        elif point == "step":
            for m, name, params, _ in functions(text):
                for p in params:
                    if re.fullmatch(r"(?:here|on|led|stands|shown|writes|of_\w+|plus|minus|first|last|present): bool", p):
                        yield at(path, text, m.start(), "%s(%s)" % (name, p), tree)
    if point == "group":
        big = {g: v for g, v in groups.items() if len(v) > 2}
        for g, v in sorted(big.items(), key=lambda e: (-len(e[0]), e[0])):
            if not any(len(h) > len(g) and set(w) >= set(v) and " ".join(g) in " ".join(h) for h, w in big.items()):
                yield "%d functions: %s: %s" % (len(v), ", ".join(g), "; ".join(x.split(" ", 1)[1] for x in v))
    if point == "fact":
        for fact, v in sorted(facts.items()):
            if len(v) > 2:
                for x in v:
                    yield x


def main():
    if len(sys.argv) < 2 or sys.argv[1] in ("-h", "--help"):
        print(__doc__)
        return 0
    tree = sys.argv[2] if len(sys.argv) > 2 else os.path.dirname(os.path.dirname(os.path.realpath(__file__)))
    found = list(places(sys.argv[1], tree))
    print("\n".join(found))
    print("%d places" % len(found))
    return 0


if __name__ == "__main__":
    sys.exit(main())
