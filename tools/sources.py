"""What house reads: the imports of a .antt or .rt file, and the comments that `rt check --start` leaves."""
import os
import re

# `use A.B.{x, y as z}`, also over several lines, `use A.B as z`, and in code `ghost use A.B.{x};`, `use a::b;`, `use a::{b, c};`
LISTED = re.compile(r"^(?:ghost )?use (\S+?)(?:\.|::)\{([^}]*)\};?[ \t]*$", re.M)
ALIAS = re.compile(r"^(?:ghost )?use ([^\s{]+) as (\S+?);?[ \t]*$", re.M)
ITEM = re.compile(r"^use (\S+)::(\w+);[ \t]*$", re.M)
# `-- src/lib.rt:148:9`, as it stands above each goal
POSITION = re.compile(r"^\s*(--|//).*\b[\w/]+\.(rt|antt|rs):\d+")
# What ends a word in antt: a name may have hyphens, primes, dots in the middle line and operators in it.
APART = re.compile(r"[\s(){}\[\];,.@&!?:*<>=`\"]+|λ")


def files(top, *ends):
    """The files below a folder; what rt keeps in a crate's out/ is none of ours, nor what cargo builds."""
    for place, folders, names in os.walk(top):
        folders[:] = sorted(f for f in folders if f != "target" and not (f == "out" and os.path.dirname(place) == "crates"))
        for name in sorted(names):
            if name.endswith(ends):
                yield os.path.join(place, name)


def read(path):
    with open(path, encoding="utf-8") as f:
        return f.read()


def known_as(name):
    """The name that an imported one goes by: the last of `x as y`."""
    return name.split(" as ")[-1].strip().strip("«»")


def stands_in(name, body, words):
    """Whether a name stands in a text; an operator by its signs, so that `◌+◌` stands in `a + b`."""
    name = known_as(name)
    if name in words or (name == "[]" and "[]" in body):
        return True
    signs = [sign for sign in name.split("◌") if sign]
    return "◌" in name and (name in body or all(sign in words or sign in body.split() for sign in signs))


def unused(text):
    """The imported names that a file doesn't use, each with the line that imports it."""
    body = ITEM.sub("", ALIAS.sub("", LISTED.sub("", text)))
    body = re.sub(r"^\s*(--|//).*$", "", body, flags=re.M)
    words = set(APART.split(body)) | set(body.split())
    out = []
    for m in LISTED.finditer(text):
        for name in filter(None, (n.strip() for n in m.group(2).split(","))):
            if not stands_in(name, body, words):
                out.append((text.count("\n", 0, m.start()) + 1, name))
    for pattern in (ALIAS, ITEM):
        for m in pattern.finditer(text):
            if known_as(m.group(2)) not in words:
                out.append((text.count("\n", 0, m.start()) + 1, m.group(2)))
    return sorted(out)
