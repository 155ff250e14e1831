#!/usr/bin/env python3
"""Brings the repository's own definitions and lemmas to one spelling: words in snake case.

usage: python3 tools/spelling.py        at the top of the repository, once, after the kit's script has run

A name that crates' specs/ and proofs/ declare, and that has a capital inside it or a dash, gets underscores. A lemma that would then have its
function's name ends in `_lem`, and the proof of a function f is f_spec. Functions of src/, strings, inputs and outputs keep their names. What the
names were and are is printed, a line each.
"""
import collections
import os
import re

WORD = re.compile(r"[A-Za-zα-ωΑ-Ω_₀-₉][A-Za-z0-9_'?ᵉα-ωΑ-Ω₀-₉-]*")
DECLARED = re.compile(r"^\s*(?:(?:abbrev|unfoldable|pattern|pub|axiom)\s+)*(?:record\s+|data\s+|ruleset\s+)?([^\s:{(,\[]+)\s*(?:\{[^}]*\}\s*)?(?:\(.*?\)\s*)*:(?!=)")


# modules that Rattle makes of a function
MADE = ("Tie", "Statement", "Goals", "Given", "Code")
# set for each file: a module of this repository stands before a dot
OWNER = re.compile(r"(?!)")


def files(suffixes):
    for folder, dirs, names in os.walk("crates"):
        dirs[:] = sorted(d for d in dirs if d != "out")
        for name in sorted(names):
            if name.endswith(suffixes):
                yield os.path.join(folder, name)


def read(path):
    with open(path, encoding="utf-8") as f:
        return f.read()


def snake(name):
    name = re.sub(r"([a-z0-9])([A-Z])", r"\1_\2", name)
    name = re.sub(r"([A-Z])([A-Z][a-z])", r"\1_\2", name)
    return name.lower().replace("-", "_")


def is_walk(path):
    return path.endswith("Proof.antt")


def declared():
    """The names that definitions and lemmas declare, and those among them that are fields of a record."""
    names, fields = set(), set()
    for path in files(".antt"):
        record = None
        for line in read(path).split("\n"):
            found = DECLARED.match(line)
            indent = len(line) - len(line.lstrip())
            if record is not None and line.strip() and indent <= record:
                record = None
            if re.match(r"\s*(?:abbrev |unfoldable |pub )*record ", line):
                record = indent
            if not found or line.lstrip().startswith("--"):
                continue
            # what answers a goal of a walk is named after the goal
            if is_walk(path) and ("tie." in line or "statement" in line):
                continue
            names.add(found.group(1))
            if record is not None and indent > record:
                fields.add(found.group(1))
    return names, fields


def renamed(names):
    """What each name becomes. A function keeps the plain name, and a lemma beside it ends in _lem."""
    old = {n for n in names if (re.search(r"[A-Z]", n[1:]) and n[0].islower()) or "-" in n}
    to = {n: snake(n) for n in old if n[0].islower() or "-" in n and not n[0].isupper()}
    by = collections.defaultdict(list)
    for n in sorted(names):
        by[to.get(n, n)].append(n)
    for new, olds in by.items():
        if len(olds) > 1:
            # a capital inside says that it is a definition; else the lemma is the one with a dash, or the one that was respelled before
            kept = [n for n in olds if re.search(r"[A-Z]", n)] or [n for n in olds if "-" not in n]
            for n in olds:
                if n != kept[0]:
                    to[n] = new + "_lem"
    return to


def turn_code(text, to, fields, walk):
    def one(found):
        word = found.group(0)
        if word not in to:
            return word
        before = text[: found.start()]
        if before.endswith(".") and "-" in word and (walk or word not in fields) and not OWNER.search(before):
            return word
        return to[word]

    return WORD.sub(one, text)


def of_others(text, to, own):
    """The names that a file has from libraries, though a definition or a lemma of this repository has the same one."""
    theirs = set()
    for found in re.finditer(r"use ([\w.']+)\.\{([^}]*)\}", text):
        path = found.group(1).split(".")
        if path[0] != "Rattle" or path[1] not in own:
            theirs |= {w.split(" as ")[0].strip() for w in found.group(2).split(",")} & set(to)
    return theirs


def modules(text, own):
    """The names that a file gives to modules of this repository, but for those that Rattle makes of a function."""
    for found in re.finditer(r"use Rattle\.(\w+)\.(?:specs|proofs)\.([\w.']+) as (\w+)", text):
        if found.group(1) in own and found.group(2).split(".")[-1] not in MADE:
            yield found.group(3)


def turn_line(line, to, fields, walk, mark):
    """Code is turned whole, and of a comment what stands between backticks."""
    at = line.find(mark)
    if at < 0 or (mark == "--" and at > 0 and not line[at - 1].isspace()):
        return turn_code(line, to, fields, walk)
    ticked = re.sub(r"`[^`]*`", lambda m: turn_code(m.group(0), to, set(to), False), line[at:])
    return turn_code(line[:at], to, fields, walk) + ticked


def in_rt(text, to, fields):
    """Of a source: the lines of ghost use, the clauses and the comments. Strings hold no name of a definition."""
    return "\n".join(turn_line(line, to, fields, False, "//") for line in text.split("\n"))


def named_spec(text, path):
    """The proof of f is f_spec."""
    name = os.path.basename(os.path.dirname(path))
    found = re.search(r"^pub ([^\s:]+) : (?:\{M : Type 1\} → )?statement", text, re.M)
    return text if not found else re.sub(r"(?<![\w-])" + re.escape(found.group(1)) + r"(?![\w-])", name + "_spec", text)


def main():
    global OWNER
    names, fields = declared()
    all_to = renamed(names)
    own = set(os.listdir("crates"))
    for path in files((".antt", ".rt")):
        text = read(path)
        theirs = of_others(text, all_to, own)
        to = {n: new for n, new in all_to.items() if n not in theirs}
        owners = sorted(set(modules(text, own)))
        OWNER = re.compile(r"(?<![\w.'-])(?:" + "|".join(owners) + r")\.$") if owners else re.compile(r"(?!)")
        if path.endswith(".rt"):
            new = in_rt(text, to, fields)
        else:
            new = "\n".join(turn_line(line, to, fields, is_walk(path), "--") for line in text.split("\n"))
            if is_walk(path):
                new = named_spec(new, path)
        if new != text:
            with open(path, "w", encoding="utf-8") as f:
                f.write(new)
    for n in sorted(all_to):
        print(f"{n}\t{all_to[n]}")


if __name__ == "__main__":
    main()
