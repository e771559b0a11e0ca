#!/usr/bin/env python3
"""Spells this repository's own definitions and lemmas as today's Rattle does: facts and types in upper camel case, everything
else in snake case, and a dash only where a lemma joins two names. Run once at the top, after port.py and before any edit by
hand; a second run changes nothing. Functions of src/, exported C names, strings, inputs and outputs keep their names.

usage: tools/port_names.py [--list FILE]     --list writes 'old TAB new' of every name that changed
"""
import collections
import glob
import re
import sys

# An identifier of .antt: all but blanks, brackets, separators and the words' own signs.
TOKEN = re.compile(r"[^\s(){};,.:\"`\[\]@|]+")
DECLARED = re.compile(
    r"^(\s*)((?:(?:unfoldable|abbrev|pub|record|data)\s+)*)([^\s(){};,:=.]+)\s*((?:\{[^}]*\}\s*|\([^)]*\)\s*)*):\s(.*)")
USED = re.compile(r"use\s+([^\s;{]+?)\.\{([^}]*)\}")
CAMEL = re.compile(r"^[a-z][A-Za-z0-9₀-₉']*[A-Z]")
# Fields that would hide the definition that they hold, and what they are called instead.
APART = {"new-tokens": "tokens_new", "before-next": "before_is", "last-next": "last_is", "formal-types": "types_are"}
# Names that no `..: ..` line declares: parameters, and words brought under a name of a file's own.
LOOSE = {"wantedResult": "wanted_result", "wantedOperands": "wanted_operands", "typedD": "typed_d", "lexedReading": "lexed_reading",
         "asTyped": "as_typed"}
# A parameter that would hide a definition: its file, its name, and what it is called instead.
HIDES = [("crates/replay/proofs/Digits.antt", "is_digit", "digit_is")]


def snake(name):
    """camelCase in snake_case; a run of capitals and a digit stay with the letter before them."""
    name = name.replace("getD", "get_or")
    return re.sub(r"(?<=[a-z0-9'])([A-Z])", lambda m: "_" + m.group(1).lower(), name)


def definitions():
    return sorted(glob.glob("crates/*/specs/**/*.antt", recursive=True))


def lemmas():
    return sorted(p for p in glob.glob("crates/*/proofs/**/*.antt", recursive=True))


def read(path):
    with open(path, encoding="utf-8") as f:
        return f.read()


def declared(path):
    """The names that a file declares, but for those that answer a generated statement."""
    for line in read(path).split("\n"):
        m = DECLARED.match(line)
        if m and not re.match(r"(tie|goal)\.|.*-lts\.", m.group(5).strip()):
            yield m.group(3), m.group(5), m.group(2)


def fields():
    """The names of records' fields, which have no dash."""
    found = set()
    for path in definitions() + lemmas():
        depth = None
        for line in read(path).split("\n"):
            m = re.match(r"(\s*)(?:pub\s+)?record\s.*\bwhere\s*$", line)
            if m:
                depth = len(m.group(1))
                continue
            if depth is None or not line.strip() or line.lstrip().startswith("--"):
                continue
            indent = len(line) - len(line.lstrip())
            if indent <= depth:
                depth = None
                continue
            m = DECLARED.match(line)
            if m and indent == depth + 2:
                found.add(m.group(3))
    return found


def joined(words, known):
    """A lemma's words, with a dash only between two known names."""
    parts, i = [], 0
    while i < len(words):
        j = next((j for j in range(len(words), i, -1) if "_".join(words[i:j]) in known), None)
        parts.append(("_".join(words[i:j]), True) if j else (words[i], False))
        i = j or i + 1
    text = parts[0][0]
    for (_, a), (word, b) in zip(parts, parts[1:]):
        text += ("-" if a and b else "_") + word
    return text


def mapping():
    defs, others = {}, {}
    for path in definitions():
        for name, kind, words in declared(path):
            defs[name] = kind
    for path in lemmas():
        for name, kind, words in declared(path):
            if name not in defs:
                others[name] = kind
    outside = set()
    for path in definitions() + lemmas():
        for module, names in USED.findall(read(path)):
            if not module.startswith("Rattle.") or module.startswith("Rattle.std."):
                outside.update(n.strip() for n in names.split(","))
    known = {snake(n) for n in defs if not n[0].isupper()} | {n for n in outside if re.match(r"^[a-z][a-z_0-9]*$", n)}
    to = dict(LOOSE)
    # (what is declared as anything else too keeps a lemma's spelling)
    plain = {n for n in fields() if "-" in n and not n.startswith("+")}
    for name in defs:
        new = snake(name) if CAMEL.match(name) else name
        if "-" in new and not new.startswith("+"):
            new = APART.get(name) or (new.replace("-", "_") if name in plain else joined(new.split("-"), known))
        if new != name:
            to[name] = new
    taken = collections.defaultdict(set)
    for name in defs:
        taken[to.get(name, name)].add(name)
    for name in others:
        new = snake(name) if CAMEL.match(name) else name
        if "-" in new and not new.startswith("+"):
            new = APART.get(name) or (new.replace("-", "_") if name in plain else joined(new.split("-"), known))
        if new != name:
            to[name] = new
        taken[to.get(name, name)].add(name)
    return to, taken, defs, others, outside


def letters(name):
    """A name without the signs that join its words."""
    return re.sub(r"[-_']", "", name).lower()


def settled():
    """old -> new for every name, with words that would fall together told apart."""
    to, taken, defs, others, outside = mapping()
    for new, olds in sorted(taken.items()):
        if len(olds) < 2:
            continue
        # A definition's own name wins, then another name of specs/, then what had no dash.
        ranks = sorted(olds, key=lambda o: (not (o in defs and CAMEL.match(o)), o not in defs, not CAMEL.match(o), o))
        first = ranks[0]
        for old in olds - {first}:
            to[old] = new + "_lem"
            assert new + "_lem" not in taken, new
        if first == new:
            to.pop(first, None)
    return {a: b for a, b in to.items() if a != b}


def turned(text, to, path):
    """A file's text with its names turned. A step or field behind a dot keeps a name that only falls together."""
    aliases = set(re.findall(r"\bas ([^\s;]+)", text))
    rt = path.endswith((".rt", ".edit"))

    lines = []
    out = []
    for line in text.split("\n"):
        code, comment = line, ""
        k = comment_at(line, "//" if rt else "--")
        if k is not None:
            code, comment = line[:k], line[k:]
        lines.append((code, comment))
    for code, comment in lines:
        def here(m, code=code):
            word = m.group(0)
            new = to.get(word)
            if new is None:
                return word
            if not (CAMEL.match(word) or "-" in word):
                if rt:
                    return word
                before = code[: m.start()]
                if before.endswith(".") and not any(re.search(r"(^|[^\w.'-])" + re.escape(a) + r"\.$", before) for a in aliases):
                    return word
            return new
        code = outside_strings(code, here)
        comment = re.sub(r"`[^`]*`", lambda q: TOKEN.sub(lambda m: to.get(m.group(0), m.group(0)) if CAMEL.match(m.group(0)) or "-" in m.group(0) else m.group(0), q.group(0)), comment)
        out.append(code + comment)
    return "\n".join(out)


def comment_at(line, sign):
    """Where a line's comment begins, strings left out."""
    quoted = False
    i = 0
    while i < len(line):
        if line[i] == '"' and not (i and line[i - 1] == "\\"):
            quoted = not quoted
        elif not quoted and line.startswith(sign, i) and (sign == "//" or i == 0 or line[i - 1] in " \t"):
            return i
        i += 1
    return None


def outside_strings(code, here):
    """Turns a line but for what stands in quotation marks."""
    parts = re.split(r'("(?:[^"\\]|\\.)*")', code)
    done, out = 0, []
    for part in parts:
        if part.startswith('"'):
            out.append(part)
        else:
            out.append(TOKEN.sub(lambda m, d=done: here_at(m, d, code, here), part))
        done += len(part)
    return "".join(out)


class Shifted:
    """A match as if found in the whole line."""

    def __init__(self, m, d):
        self.m, self.d = m, d

    def group(self, n):
        return self.m.group(n)

    def start(self):
        return self.m.start() + self.d


def here_at(m, d, code, here):
    return here(Shifted(m, d))


def pages():
    """The documents: names stand there in backticks."""
    return sorted(p for p in glob.glob("*.md") + glob.glob("docs/**/*.md", recursive=True) if "PORT" not in p)


def files():
    return sorted(p for k in ("rt", "antt", "edit") for p in glob.glob(f"crates/**/*.{k}", recursive=True) if "/out/" not in p)


def main():
    to = settled()
    if "--list" in sys.argv:
        with open(sys.argv[sys.argv.index("--list") + 1], "w", encoding="utf-8") as f:
            f.writelines(f"{a}\t{b}\n" for a, b in sorted(to.items()))
    news = set(to.values())
    for path in files():
        text = read(path)
        for where, word, other in HIDES:
            if where == path:
                text = re.sub(rf"(?<![\w.'-]){word}(?![\w'-])", other, text)
        new = turned(text, to, path)
        if "--look" in sys.argv:
            had = set(TOKEN.findall(text))
            for word in sorted(set(TOKEN.findall(new)) & news & had):
                olds = [a for a, b in to.items() if b == word and a in had]
                if olds:
                    print(f"look: {path}: {word} stood beside {olds}")
            continue
        with open(path, "w", encoding="utf-8") as f:
            f.write(new)
    # What port.py turned is looked for in documents and comments by its letters alone.
    now = collections.defaultdict(set)
    for path in definitions() + lemmas():
        for name, _, _ in declared(path):
            now[letters(name)].add(name)

    def page_word(m):
        word = m.group(0)
        if word in to and (CAMEL.match(word) or "-" in word):
            return to[word]
        found = now.get(letters(word), set())
        if (CAMEL.match(word) or "-" in word) and word not in found and len(found) == 1:
            return next(iter(found))
        return word

    for path in pages() + [p for p in files() if p.endswith((".antt", ".rt"))]:
        text = read(path)
        if path.endswith(".md"):
            new = re.sub(r"`[^`\n]*`", lambda q: TOKEN.sub(page_word, q.group(0)), text)
        else:
            rows = []
            for line in text.split("\n"):
                k = comment_at(line, "//" if path.endswith(".rt") else "--")
                if k is not None:
                    line = line[:k] + re.sub(r"`[^`]*`", lambda q: TOKEN.sub(page_word, q.group(0)), line[k:])
                rows.append(line)
            new = "\n".join(rows)
        if new != text and "--look" not in sys.argv:
            with open(path, "w", encoding="utf-8") as f:
                f.write(new)


if __name__ == "__main__":
    main()
