#!/usr/bin/env python3
"""Turns the Proof.antt files of a crate, which answer a record of goals, into Invariants.antt and Answers.antt.

usage: python3 tools/to_answers.py CRATE NAMES.json [FUNCTION..]

NAMES.json is what `rt check --generated DIR --old-names` writes. A goal that the search alone answered is left out.
"""
import json
import os
import re
import sys

TOP = os.path.dirname(os.path.dirname(os.path.realpath(__file__)))
FIELD = r"[A-Za-z0-9_][A-Za-z0-9_'₀-₉-]*|-[A-Za-z0-9_][A-Za-z0-9_'₀-₉-]*"
NAME = r"[A-Za-z_₀-₉][A-Za-z0-9_'₀-₉-]*"
PATH = re.compile(r"(?<![\w'.₀-₉-])(" + NAME + r")((?:\.(?:" + FIELD + r"))+)")


def norm(s):
    s = s.lower().replace("-", "_")
    return s[:-4] if s.endswith("_lem") else s


class Fn:
    def __init__(self, it):
        self.places = it["places"]
        self.byname = it["places_by_name"]
        self.at = {p[0]: i for i, p in enumerate(self.places)}
        self.needs = it["needs"]
        self.asked = it["asked_at"]
        self.arms = it["arms"]
        self.loops = it["loops"]
        self.changed = it["changed"]
        self.params = it["params"]

    def need(self, name):
        n = norm(name)
        tries = [n] + ([n[len("overflow_"):]] if n.startswith("overflow_") else [])
        for t in tries:
            for i, (old, new) in enumerate(self.needs):
                if norm(old) == t or (norm(new) == t and not any(norm(o) == t for o, _ in self.needs)):
                    return i
        return None

    def chain(self, place):
        got = []
        while place is not None and place in self.at:
            got.append(self.at[place])
            place = self.places[self.at[place]][1]
        return got

    def turn_fields(self, fields, chain, said):
        fields = [f for f in fields if f != "before"]
        out, i = [], 0
        while i < len(fields):
            f = fields[i]
            hit = None
            for k in chain if i == 0 else []:
                p = self.places[k]
                if p[2][0] and norm(p[2][0]) == norm(f):
                    hit = k
                    break
            if hit is None:
                out.append(f)
                i += 1
                continue
            rest = fields[i + 1:]
            # an arm of a match: the longest of its old paths that fits
            best = None
            for k in chain:
                if k < len(self.arms) and self.arms[k]:
                    arm, _, pairs = self.arms[k]
                    for new, step, path in pairs:
                        if norm(step) == norm(f) and path and rest[:len(path)] == path:
                            if best is None or len(path) > best[2]:
                                best = (arm, new, len(path))
            if best:
                out += [best[0], best[1]]
                i += 1 + best[2]
                continue
            p = self.places[hit]
            out.append(p[2][1])
            i += 1
            if i < len(fields):
                for old, new in p[4]:
                    if fields[i] == old:
                        fields[i] = new
                        break
                if fields[i] == "new" and p[3] in self.params and i + 1 < len(fields):
                    j, k = i + 1, 0
                    while j < len(fields) and fields[j] == "1" and j + 1 < len(fields) and fields[j + 1] in ("0", "1"):
                        k += 1
                        j += 1
                    if fields[j] == "0" and k < len(self.params[p[3]]):
                        out += ["new", self.params[p[3]][k]]
                        i = j + 1
        return out

    def turn(self, text, chain):
        # a name for the place itself is the place
        alias = {"c"}
        lines, out = text.split("\n"), []
        for l in lines:
            m = re.match(r"^(.*?)let (" + NAME + r") = (" + NAME + r")((?:\.before)*) in$", l)
            if m and m.group(3) in alias and m.group(1).strip() in ("",):
                alias.add(m.group(2))
                continue
            out.append(l)
        alias.discard("c")
        text = "\n".join(out)
        if alias:
            text = re.sub(r"(?<![\w'.₀-₉-])" + NAME, lambda w: "c" if w.group(0) in alias else w.group(0), text)
        def one(m):
            base, fields = m.group(1), m.group(2)[1:].split(".")
            if base in ("tie", "lib", "native", "borrow", "mathlib", "Prim", "Rattle"):
                return m.group(0)
            fields = self.turn_fields(fields, chain, None) if base == "c" else [f for f in fields if f != "before"]
            got = []
            for f in fields:
                m2 = re.fullmatch(r"t(\d+)", f)
                if m2 and 1 <= int(m2.group(1)) <= len(self.own):
                    f = self.own[int(m2.group(1)) - 1]
                if f == "well-formed":
                    f = "well_formed"
                if f == "is_IsWord":
                    f = "is_word"
                if "-" in f and f.replace("-", "_") in self.own:
                    f = f.replace("-", "_")
                got.append(f)
            got = ["measured" if f == "decreases" else f for f in got]
            return ".".join([base] + got)
        return PATH.sub(one, text)


def own_params(crate, key):
    """The names of a function's parameters, from its source."""
    name = key[:-len(".Lts")].split("proofs.", 1)[1].split(".")[-1]
    src = os.path.join(TOP, "crates", crate, "src")
    for f in sorted(os.listdir(src)):
        if f.endswith(".rt"):
            m = re.search(r"fn " + name + r"(?:<[^>]*>)?\(([^{]*?)\)\s*(?:->|ensures|requires|\{|where)", open(os.path.join(src, f), encoding="utf-8").read(), re.S)
            if m:
                return [x.split(":")[0].replace("mut ", "").replace("&", "").strip() for x in re.split(r",(?![^\[(<]*[\])>])", m.group(1)) if x.strip()]
    return []


def blocks(text):
    """The declarations of a file: a list of blocks of lines, each begun at column 0; a signature goes with its definition."""
    lines = text.split("\n")
    got, cur = [], []
    for l in lines:
        if l and not l[0].isspace() and cur and cur[-1].strip() == "":
            got.append(cur)
            cur = []
        cur.append(l)
    if cur:
        got.append(cur)
    return ["\n".join(b).rstrip("\n") for b in got if "\n".join(b).strip()]


def words(text):
    return set(re.findall(NAME, text))


def turn_file(crate, folder, key, names):
    path = os.path.join(folder, "Proof.antt")
    text = open(path, encoding="utf-8").read()
    if " as tie" not in text or key not in names:
        return "left"
    fn = Fn(names[key])
    fn.own = own_params(crate, key)
    module = key[:-len(".Lts")].replace("Rattle-" + crate + "-proofs", "Rattle." + crate + ".proofs")
    head, uses, rest = [], [], []
    lines = text.split("\n")
    i = 0
    while i < len(lines) and (lines[i].startswith("--") or not lines[i].strip()):
        head.append(lines[i])
        i += 1
    body = "\n".join(lines[i:])
    decls = []
    for b in blocks(body):
        keep = []
        for l in b.split("\n"):
            if re.match(r"(pub )?use ", l):
                if not re.search(r"\.(Statement\.\{statement\}|Tie as tie)$", l):
                    uses.append(l)
            else:
                keep.append(l)
        b = "\n".join(keep).strip("\n")
        if b.strip():
            decls.append(b)
    answers, helpers, invariants = [], [], []
    inv_names = {}
    for b in decls:
        first = b.split("\n")
        k = 0
        notes = []
        while k < len(first) and first[k].startswith("--"):
            notes.append(first[k])
            k += 1
        if k == len(first):
            helpers.append(b)
            continue
        sig = first[k]
        m = re.match(r"(?:abbrev |unfoldable )*(?:pub )?(" + NAME + r") : tie\.(invariant|decreases)-([\w-]+)$", sig)
        if m:
            invariants.append((notes, m.group(1), m.group(2), m.group(3), "\n".join(first[k + 1:])))
            inv_names[m.group(1)] = m.group(2)
            continue
        m = re.match(r"(?:pub )?(" + NAME + r") : tie\.Need-([\w'-]+)( .*)?$", sig)
        if m:
            answers.append((notes, m.group(1), m.group(2), "\n".join(first[k + 1:])))
            continue
        if re.match(r"pub " + NAME + r" : (\{M : Type 1\} → )?statement", sig):
            continue
        helpers.append(b)
    def place_type(m):
        p = m.group(1)
        for i, pl in enumerate(fn.places):
            if norm(pl[0]) == norm(p):
                return "goal." + fn.byname[i]
        return "goal." + p
    def goal_types(t):
        t = re.sub(r"tie\.([\w-]+)(?: (?:invariant|decreases)-[\w-]+)*", place_type, t)
        return t
    # ---- invariants
    inv_out = []
    for notes, own, kind, loop, text_ in invariants:
        idx = next((i for i, l in enumerate(fn.loops) if norm(l[0][0]) == norm(loop)), None)
        if idx is None:
            return "no loop " + loop
        new = fn.loops[idx][0][1]
        vs, ch = fn.loops[idx][1], fn.changed[idx]
        m = re.match(re.escape(own) + r"((?: [\w'₀-₉-]+)*) =(.*)$", text_, re.S)
        unf = ""
        if not m:
            m2 = re.match(r"(unfolding [^\n]*\n)" + re.escape(own) + r"((?: [\w'₀-₉-]+)*) =(.*)$", text_, re.S)
            if not m2:
                return "odd invariant " + own
            unf = m2.group(1)
            args, bd = m2.group(2).split(), m2.group(3)
        else:
            args, bd = m.group(1).split(), m.group(2)
        want = [("l.initial." + v if c else "l." + v) for v, c in zip(vs, ch)] + ["l." + v for v, c in zip(vs, ch) if c]
        if len(want) != len(args):
            return "arguments of %s: %d for %d (%s)" % (own, len(args), len(want), vs)
        sub = {a: w for a, w in zip(args, want) if a != "_"}
        bd = re.sub(r"(?<![\w'.₀-₉-])" + NAME, lambda w: sub.get(w.group(0), w.group(0)), bd)
        inv_out.append("\n".join(notes + ["abbrev pub %s-%s : goal.%s-%s" % (kind, new, kind, new), unf + "%s-%s l =%s" % (kind, new, bd)]))
    # helpers that invariants cite
    def defined(b):
        got = set()
        is_record = any(re.match(r"(pub )?record ", x) for x in b.split("\n"))
        for l in b.split("\n"):
            m = None if is_record else re.match(r"(?:  )?(?:abbrev |unfoldable |pub )*(" + NAME + r")(?: \([^)]*\))* :( |$)", l)
            if m:
                got.add(m.group(1))
            m = re.match(r"\s*(?:pub )?(?:record|data|ruleset) (?:pub )?(" + NAME + ")", l)
            if m:
                got.add(m.group(1))
        return got
    need = set()
    for t in inv_out:
        need |= words(t)
    inv_helpers = []
    again = True
    while again:
        again = False
        for b in helpers:
            if b not in inv_helpers and defined(b) & need:
                inv_helpers.append(b)
                need |= words(b)
                again = True
    inv_helpers = [b for b in helpers if b in inv_helpers]
    shared = sorted(set().union(*[defined(b) for b in inv_helpers])) if inv_helpers else []
    def public(b):
        out = []
        is_record = bool(re.match(r"\s*(pub )?record ", b.lstrip("\n"))) or any(re.match(r"record |pub record ", x) for x in b.split("\n"))
        for l in b.split("\n"):
            if is_record and re.match(r"  " + NAME + r"(?: " + NAME + r")* :( |$)", l):
                l = "  pub " + l[2:]
            m = re.match(r"(\s*)((?:abbrev |unfoldable )*)(" + NAME + r") :( |$)", l)
            if m and m.group(1) in ("", "  ") and (m.group(1) == "" or b.lstrip().startswith("module")) and "pub" not in l.split(":")[0].split():
                l = m.group(1) + m.group(2) + "pub " + l[len(m.group(1)) + len(m.group(2)):]
            l = re.sub(r"^(record|data|ruleset) (?!pub)", r"pub \1 ", l)
            out.append(l)
        return "\n".join(out)
    # ---- answers
    ans_out = []
    lost = []
    for notes, own, need_name, text_ in answers:
        i = fn.need(need_name)
        plain = re.sub(r"\s+", " ", text_).strip()
        if re.fullmatch(re.escape(own) + r" c( κs)* = search rules", plain):
            continue
        if i is None:
            lost.append((own, need_name))
            ans_out.append("\n".join("-- LOST " + l for l in [own + " : " + need_name] + text_.split("\n")))
            continue
        new = fn.needs[i][1]
        chain = fn.chain(fn.asked[i][0])
        t = re.sub(r"(?<![\w'.-])" + re.escape(own) + r"(?![\w'-])", new, text_)
        t = re.sub(r"(?m)^(" + re.escape(new) + r" c) κs =", r"\1 =", t)
        t = fn.turn(t, chain)
        t = re.sub(r"(?<=[ (])((?:invariant|decreases)-loop\d*)(?= (?:invariant|decreases)-loop)", "", t)
        ans_out.append("\n".join(notes + ["pub %s : goal.%s" % (new, new), t]))
    every = list(range(len(fn.places)))
    # a helper at the start that the search alone proves stands where it is cited
    for b in list(helpers):
        m = re.fullmatch(r"(" + NAME + r") : \(c : tie\.Start[^)]*\) → [^\n]*\n\1 c = search rules", b.strip())
        if m:
            helpers.remove(b)
            for i, t in enumerate(ans_out):
                ans_out[i] = re.sub(r"\(" + re.escape(m.group(1)) + r" (?:\([\w.-]+\)|[\w.-]+)\)", "(search rules)", t)
    helpers_out = [fn.turn(goal_types(b), every) for b in helpers if b not in inv_helpers]
    comment = "\n".join(head).rstrip("\n")
    if inv_out:
        t = comment + "\n" if comment else ""
        t += "\n".join(uses + ["use %s.Given as goal" % module]) + "\n\n" + "\n\n".join([public(b) for b in inv_helpers] + inv_out) + "\n"
        open(os.path.join(folder, "Invariants.antt"), "w", encoding="utf-8").write(t)
    if ans_out:
        t = comment + "\n" if comment else ""
        more = ["use %s.Invariants.{%s}" % (module, ", ".join(shared))] if shared else []
        # helpers before the answers, in the order of the file
        t += "\n".join(uses + more + ["use %s.Goals as goal" % module]) + "\n\n" + "\n\n".join(helpers_out + ans_out) + "\n"
        open(os.path.join(folder, "Answers.antt"), "w", encoding="utf-8").write(t)
    os.remove(path)
    return ("LOST " + str(lost)) if lost else "turned"


def main(argv):
    crate, names = argv[0], json.load(open(argv[1], encoding="utf-8"))
    only = argv[2:]
    top = os.path.join(TOP, "crates", crate, "proofs")
    for folder, dirs, files in os.walk(top):
        dirs.sort()
        if "Proof.antt" not in files:
            continue
        f = os.path.relpath(folder, top).replace("/", ".")
        if only and f not in only:
            continue
        key = "Rattle-%s-proofs.%s.Lts" % (crate, f)
        said = turn_file(crate, folder, key, names)
        if said != "turned":
            print(crate, f, said)


main(sys.argv[1:])
