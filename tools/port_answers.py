#!/usr/bin/env python3
"""Turns a proof that walks the code by hand (proofs/F/Proof.antt) into Invariants.antt and Answers.antt, by the file that
`rt check --generated DIR --old-names` writes. What it can't turn it names, and leaves.

usage: tools/port_answers.py CRATE NAMES.json
"""
import json
import os
import re
import sys

WORD = r"[^\s(){};,.:\"`\[\]@|]+"


class Left(Exception):
    pass


def plain(name):
    """A made name without what older spellings and this port's renaming put into it."""
    return re.sub(r"-lem$", "", name.replace("_", "-").lower())


def same(a, b):
    return plain(a) == plain(b)


# What port.py left of the fields' older names.
FIELDS = {"pre": "requires", "inv": "invariant", "taken": "true", "left": "false", "last": "new"}


class Names:
    """What one function's places and statements were called, and are."""

    def __init__(self, entry):
        self.needs = entry["needs"]
        self.asked = entry["asked_at"]
        self.settled = entry["settled"]
        self.places = [p for p in entry["places"]]
        self.index = {plain(p[0]): i for i, p in enumerate(self.places)}
        self.start = self.index["start"]
        self.arms = entry["arms"]
        self.params = entry["params"]
        self.loops = entry["loops"]
        self.changed = entry["changed"]

    def place(self, name):
        """A place by its name; an older one that is no more counts as the start."""
        return self.index.get(plain(name), self.start)

    def resolve(self, place, path):
        """The words of today for a path that began at a place; None where it is a place itself."""
        path = list(path)
        while path and path[0] == "before":
            parent = self.places[place][1]
            place = self.place(parent) if parent else place
            path.pop(0)
        if not path:
            return place, None
        first = path[0]
        f = FIELDS.get(first, first)
        path.pop(0)
        if f in ("args", "requires", "ranges", "utf8"):
            return place, "c." + ".".join([f] + path)
        at = place
        while not (self.places[at][2][0] and same(f, self.places[at][2][0])):
            if self.places[at][1] is None:
                found = [i for i, p in enumerate(self.places) if p[2][0] and same(f, p[2][0])]
                if not found:
                    raise Left(f"at {self.places[place][0]} no {f}")
                at = found[-1]
                break
            at = self.place(self.places[at][1])
        place = at
        name, parent, (old, new), callee, _ = self.places[place]
        if path and path[0] in FIELDS and (path[0] not in ("left", "taken") or old.startswith("if") or old.endswith("-test")):
            path[0] = FIELDS[path[0]]
        arm = self.arms[place]
        if arm:
            for field, step, steps in sorted(arm[2], key=lambda e: -len(e[2])):
                if same(step, old) and path[: len(steps)] == steps and not field.endswith("-own"):
                    return place, ".".join([f"c.{arm[0]}.{field}"] + path[len(steps):])
            for field, step, steps in arm[2]:
                if same(step, old) and not steps and field.endswith("-own"):
                    return place, ".".join([f"c.{arm[0]}.{field}"] + path)
            raise Left(f"at {name} the arm has no {f}.{'.'.join(path)}")
        if path and path[0] == "new" and callee:
            k, i = 0, 1
            while i < len(path) and path[i] == "1":
                k, i = k + 1, i + 1
            params = self.params[callee]
            if i < len(path) and path[i] == "0" and k < len(params):
                path = ["new", params[k]] + path[i + 1:]
            elif k == len(params) - 1:
                path = ["new", params[k]] + path[i:]
            else:
                raise Left(f"{f}: no parameter at {path}")
        return place, ".".join([f"c.{new}"] + path)


def items(text):
    """The file's parts: comment and use lines at its head, then each declaration with its lines."""
    lines = text.rstrip("\n").split("\n")
    parts, i = [], 0
    head = []
    while i < len(lines) and (lines[i].startswith("--") or not lines[i].strip()):
        head.append(lines[i])
        i += 1
    uses = []
    while i < len(lines):
        line = lines[i]
        if line.startswith("use "):
            uses.append(line)
            i += 1
        elif not line.strip():
            i += 1
        else:
            j = i + 1
            start = line
            while j < len(lines) and not (lines[j] and not lines[j][0].isspace() and is_new(lines, j, start)):
                j += 1
            while lines[j - 1].strip() == "":
                j -= 1
            parts.append(lines[i:j])
            i = j
            while i < len(lines) and not lines[i].strip():
                i += 1
    return head, uses, parts


def name_of(line):
    m = re.match(r"(?:(?:abbrev|unfoldable|pub)\s+)*(" + WORD + r")", line)
    return m.group(1) if m else ""


def is_new(lines, j, start):
    """Whether line j begins another declaration than the one that began with `start`."""
    line = lines[j]
    if line.startswith("--"):
        return True
    if line.startswith("unfolding"):
        return False
    name = name_of(line)
    return not (name == name_of(start) and not re.match(r"(?:(?:abbrev|unfoldable|pub)\s+)*" + re.escape(name) + r"\s*:", line))


def split_args(text):
    """The arguments of a call, written one after the other."""
    out, depth, cur = [], 0, ""
    for ch in text:
        if ch in "([{":
            depth += 1
        if ch in ")]}":
            depth -= 1
        if ch.isspace() and depth == 0:
            if cur:
                out.append(cur)
            cur = ""
        else:
            cur += ch
    return out + ([cur] if cur else [])


class File:
    def __init__(self, crate, folder, entry):
        self.crate, self.folder = crate, folder
        self.names = Names(entry)
        self.walks = {}      # helper: (from place, to place)
        self.inline = {}     # helper over a place: (type, parameter, body)
        self.whole = True    # whether nothing was left

    def body(self, text, alias):
        """A term with its paths turned. `alias` has what each variable stands for."""
        names = self.names
        alias = dict(alias)
        # places bound by their type
        def typed(m):
            alias[m.group(1)] = (names.place(m.group(2)), ())
            return ""
        text = re.sub(r"let (" + WORD + r")\s*:\s*tie\.([^\s=]+)[^=;]*?=\s*search\s+in[ ]?", typed, text)
        used = []
        out, i = "", 0
        token = re.compile(WORD + r"(?:\." + WORD + r")*")
        while i < len(text):
            if text.startswith("--", i) and (i == 0 or text[i - 1] in " \n"):
                j = text.find("\n", i)
                j = len(text) if j < 0 else j
                out += text[i:j]
                i = j
                continue
            if text[i] == '"':
                j = text.index('"', i + 1) + 1
                out += text[i:j]
                i = j
                continue
            m = token.match(text, i)
            if not m:
                out += text[i]
                i += 1
                continue
            word = m.group(0)
            parts = word.split(".")
            # let x = PATH in
            let = re.match(r"let\s+(" + WORD + r")\s*=\s*", text[i:]) if word == "let" else None
            if let:
                k = i + let.end()
                value = self.path_at(text, k, alias)
                if value:
                    (place, path), end = value
                    tail = re.match(r"\s+in(?=\s|\()[ ]?", text[end:])
                    if tail:
                        alias[let.group(1)] = (place, path)
                        i = end + tail.end()
                        # the rest of an emptied line
                        if out.endswith("\n") or re.search(r"\n[ ]*$", out):
                            rest = re.match(r"\n[ ]*", text[i:])
                            if rest:
                                out = re.sub(r"\n[ ]*$", "", out)
                        continue
            if parts[0] in alias:
                value = self.path_at(text, i, alias)
                (place, path), end = value
                at, words = names.resolve(place, path)
                if words is None:
                    raise Left(f"a place handed on: {text[max(0, i - 30):i + 30]!r}")
                out += words
                i = end
                continue
            if parts[0] in self.inline and len(parts) == 1:
                type_, param, code = self.inline[parts[0]]
                rest = re.match(r"\s+", text[i + len(word):])
                if rest:
                    k = i + len(word) + rest.end()
                    value = self.path_at(text, k, alias)
                    if value:
                        (place, path), end = value
                        out += "(" + self.body(code, {param: (place, path)}).strip() + ")"
                        i = end
                        continue
            out += word
            i = m.end()
        return re.sub(r"[ ]+\n", "\n", out)

    def path_at(self, text, i, alias):
        """The path that stands at i, if one does: ((place, path), where it ends)."""
        m = re.match(r"(" + WORD + r")((?:\." + WORD + r")*)", text[i:])
        if m and m.group(1) in alias:
            place, path = alias[m.group(1)]
            more = tuple(m.group(2).split(".")[1:]) if m.group(2) else ()
            return self.norm(place, path + more), i + m.end()
        # (walk x).rest, or walk x
        m = re.match(r"\(?(" + WORD + r")\s+", text[i:])
        if m and m.group(1) in self.walks:
            inner = self.path_at(text, i + m.end(), alias)
            if inner:
                (place, path), end = inner
                if path:
                    return None
                if text[i] == "(":
                    if text[end] != ")":
                        return None
                    end += 1
                    rest = re.match(r"((?:\." + WORD + r")*)", text[end:])
                    more = tuple(rest.group(1).split(".")[1:]) if rest.group(1) else ()
                    end += rest.end()
                else:
                    more = ()
                return self.norm(self.walks[m.group(1)][1], more), end
        if text[i:i + 1] == "(":
            inner = self.path_at(text, i + 1, alias)
            if inner and text[inner[1]:inner[1] + 1] == ")":
                (place, path), end = inner
                end += 1
                rest = re.match(r"((?:\." + WORD + r")*)", text[end:])
                more = tuple(rest.group(1).split(".")[1:]) if rest.group(1) else ()
                return self.norm(place, path + more), end + rest.end()
        return None

    def norm(self, place, path):
        path = list(path)
        while path and path[0] == "before":
            parent = self.names.places[place][1]
            place = self.names.place(parent) if parent else place
            path.pop(0)
        return place, tuple(path)

    def need(self, label):
        """Which statement a label of the old file means."""
        for i, (old, new) in enumerate(self.names.needs):
            for form in (label, re.sub(r"^slice[-_]bounds", "part", label), re.sub(r"^(overflow|bounds|offset-bounds|slice-bounds|nonzero)[-_]", "", label)):
                if same(old, form):
                    return i
        raise Left(f"no statement {label}")


def loop_file(f, part):
    text = "\n".join(part)
    m = re.match(r"abbrev (invariant|decreases)-(" + WORD + r")\s*:\s*tie\." + WORD + r"[^\n]*\n(.*)$", text, re.S)
    kind, loop, rest = m.group(1), m.group(2), m.group(3)
    i = next((i for i, (l, _) in enumerate(f.names.loops) if same(l[0], loop)), None)
    if i is None:
        raise Left(f"no loop {loop}")
    (old, new), variables = f.names.loops[i]
    changed = f.names.changed[i]
    unfold = re.match(r"unfolding [^\n]*\n", rest)
    lead = unfold.group(0) if unfold else ""
    rest = rest[len(lead):]
    head = re.match(kind + "-" + re.escape(loop) + r"\s+(.*?)=\s?", rest, re.S)
    params = head.group(1).split()
    body = rest[head.end():]
    want = [(v, "l.initial." + v if c else "l." + v) for v, c in zip(variables, changed)]
    want += [(v, "l." + v) for v, c in zip(variables, changed) if c]
    if len(params) != len(want):
        raise Left(f"{kind}-{loop}: {len(params)} parameters, not {len(want)}: {params} {want}")
    to = {p: w[1] for p, w in zip(params, want) if p != "_"}
    token = re.compile(WORD)
    def one(m):
        before = body[: m.start()]
        return to[m.group(0)] if m.group(0) in to and not before.endswith(".") else m.group(0)
    body = token.sub(one, body)
    new = new.replace("loop-", "", 1) if False else new
    return f"abbrev pub {kind}-{new} : goal.{kind}-{new}\n{lead}{kind}-{new} l ={'' if body.startswith(chr(10)) else ' '}{body}"


def used_imports(uses, text):
    out = []
    words = set(re.findall(WORD, text))
    def has(n):
        if n in words or (n == "[]" and "[]" in text):
            return True
        if "◌" in n:
            return any(p in words or p in text for p in n.split("◌") if p)
        return False
    for u in uses:
        if re.search(r"\.(Statement\.\{statement\}|Tie as tie)", u):
            continue
        m = re.match(r"use (.*)\.\{(.*)\}$", u)
        if m:
            names = [n.strip() for n in m.group(2).split(",")]
            kept = [n for n in names if has(n)]
            if kept:
                out.append(f"use {m.group(1)}.{{{', '.join(kept)}}}")
            continue
        m = re.match(r"use .* as (\S+)$", u) or re.match(r"use .*?\.([^.\s]+)$", u)
        if m and re.search(r"(?<![\w.'-])" + re.escape(m.group(1)) + r"\.", text):
            out.append(u)
    return out


def answer(f, out, com, name, label, part):
    """One answer under its name of today."""
    i = f.need(label)
    new = f.names.needs[i][1]
    place = f.names.place(f.names.asked[i][0])
    rest = "\n".join(part[1:])
    sig = part[0]
    # a signature may run on
    m = re.match(r"(.*?)(^unfolding [^\n]*\n(?:\s+[^\n]*\n)*?)?^" + re.escape(name) + r"((?:\s+" + WORD + r")*?)\s*=(?=\s)(.*)$", rest, re.S | re.M)
    if not m:
        raise Left(f"{name}: no clause")
    unfolding, params, body = m.group(2) or "", m.group(3).split(), m.group(4)
    c = params[0] if params else None
    body = f.body(body, {c: (place, ())} if c and c != "_" else {})
    if not params:
        body = body
    out += ["\n".join(x) for x in com]
    out.append(f"pub {new} : goal.{new}\n{unfolding}{new} {'c' if params else ''}".rstrip() + " =" + body)


def turn(crate, folder, path, entry):
    text = open(folder + "/Proof.antt", encoding="utf-8").read()
    f = File(crate, folder, entry)
    head, uses, parts = items(text)
    answers, invariants, comment = [], [], []
    helpers = []
    spec = None
    for part in parts:
        line = part[0]
        if line.startswith("--"):
            # comment lines, and maybe the declaration behind them
            comment.append(part)
            continue
        name = name_of(line)
        whole = "\n".join(part)
        if re.match(r"abbrev (invariant|decreases)-", line):
            invariants.append((comment, part))
            comment = []
            continue
        m = re.match(r"abbrev (" + WORD + r")\s*:\s*tie\.(\S+)[^→]*→\s*tie\.(\S+)[^\n]*\n", whole)
        if m:
            f.walks[m.group(1)] = (f.names.place(m.group(2)), f.names.place(m.group(3)))
            comment = []
            continue
        m = re.match(r"abbrev (" + WORD + r")\s*:\s*tie\.(\S+)([^→\n]*)→\s*([^\n]*)\n\1 (" + WORD + r")\s*=\s*(.*)$", whole, re.S)
        if m:
            f.inline[m.group(1)] = (m.group(4), m.group(5), m.group(6))
            comment = []
            continue
        if re.search(r"statement M", whole) and "spec" in name:
            spec = whole
            comment = []
            continue
        m = re.match(r"(" + WORD + r")\s*:\s*tie\.Need-(\S+)", line)
        if m:
            answers.append((comment, m.group(1), m.group(2), part))
            comment = []
            continue
        helpers.append((comment, part))
        comment = []
    if spec is None:
        raise Left("no spec")
    out = []
    for com, name, label, part in answers:
        try:
            answer(f, out, com, name, label, part)
        except (Left, KeyError, AttributeError, IndexError, TypeError) as e:
            print(f"left: {folder}: {name}: {type(e).__name__} {str(e)[:150]}")
            f.whole = False
    # what stands written out in the call
    m = re.search(r"tie\.spec\s(.*)\)\s*$", spec, re.S) or re.search(r"tie\.spec\s+(.*)$", spec, re.S)
    unfold = re.search(r"^unfolding [^\n]*", spec, re.M)
    args = split_args(m.group(1))
    loops = 2 * len(f.names.loops)
    args = args[loops:]
    named = {a[1]: i for i, a in enumerate(answers)}
    inline = [(k, a) for k, a in enumerate(args) if a.startswith("(") and not re.fullmatch(r"\(λ c( κs)?\. search rules\)", a)]
    if inline:
        if len(args) != len(f.names.needs):
            print(f"left: {folder}: {len(args)} arguments, {len(f.names.needs)} statements")
            f.whole = False
            inline = []
        for k, a in inline:
            new = f.names.needs[k][1]
            place = f.names.place(f.names.asked[k][0])
            m = re.fullmatch(r"\(λ (" + WORD + r")((?:\s+" + WORD + r")*)\.\s*(.*)\)", a, re.S)
            if not m:
                raise Left(f"argument {a}")
            try:
                body = f.body(" " + m.group(3), {m.group(1): (place, ())})
            except (Left, KeyError, AttributeError, IndexError, TypeError) as e:
                print(f"left: {folder}: {new}: {type(e).__name__} {str(e)[:150]}")
                f.whole = False
                continue
            u = unfold.group(0) + "\n" if unfold else ""
            out.append(f"pub {new} : goal.{new}\n{u}{new} c ={body}")
    inv = []
    for com, part in invariants:
        inv += ["\n".join(x) for x in com]
        inv.append(loop_file(f, part))
    if helpers:
        for com, part in helpers:
            if any("tie." in l for l in part):
                print(f"left: {folder}: helper {part[0]}")
                f.whole = False
        helped = []
        for com, part in helpers:
            if any("tie." in l for l in part):
                continue
            helped += ["\n".join(x) for x in com]
            helped.append("\n".join(part))
        out = helped + out
    first = [l for l in head if l.startswith("--")]
    mod = f"Rattle.{crate}.proofs.{path}"
    if inv:
        text = "\n\n".join(inv)
        with open(folder + "/Invariants.antt", "w", encoding="utf-8") as g:
            lead = first if not out else ["-- What each turn of a loop keeps."]
            g.write("\n".join(lead + used_imports(uses, text) + [f"use {mod}.Given as goal", "", text]) + "\n")
    if out:
        text = "\n\n".join(out)
        with open(folder + "/Answers.antt", "w", encoding="utf-8") as g:
            g.write("\n".join(first + used_imports(uses, text) + [f"use {mod}.Goals as goal", "", text]) + "\n")
    os.remove(folder + "/Proof.antt")
    return bool(inv), bool(out), f.whole


def main():
    crate, names = sys.argv[1:3]
    d = json.load(open(names, encoding="utf-8"))
    done = left = empty = 0
    for key, entry in d.items():
        m = re.match(r"Rattle-" + crate + r"-proofs\.(.*)\.Lts(?:-.*)?$", key)
        if not m or not isinstance(entry, dict) or "needs" not in entry:
            continue
        path = m.group(1)
        folder = f"crates/{crate}/proofs/" + path.replace(".", "/")
        if not os.path.exists(folder + "/Proof.antt"):
            continue
        try:
            a, b, whole = turn(crate, folder, path, entry)
            done += whole
            left += not whole
            empty += not (a or b)
        except (Left, KeyError, AttributeError, IndexError, TypeError) as e:
            left += 1
            print(f"left: {folder}: {type(e).__name__} {e}")
    print(f"{crate}: turned {done} ({empty} need no file), left {left}")


if __name__ == "__main__":
    main()
