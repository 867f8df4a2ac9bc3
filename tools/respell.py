#!/usr/bin/env python3
"""Spells the repository's own definitions and lemmas as today's Rattle spells names.

usage: python3 tools/respell.py [--list]      at the top of the repository, once, after the kit's port.py

Definitions, constructors, fields and lemmas are in snake case, so that an attribute can name a lemma; types are in camel case.
The repository's own choice by a test is `when b then x else y`, since `if b then x else y` is the library's, which has another precedence.
Names of src/, strings, names that Rattle makes, and those of other libraries keep their spelling; so do comments, but for what stands in backticks.
--list prints the names and what becomes of each, and writes nothing.
"""

import collections
import os
import re
import sys

ALIAS = re.compile(r"(?<![\w·])([A-Z][A-Za-z]*)·([a-z]\w*)")
CHOICE = re.compile(r"(?<![^\s(\[{,;=])if(?=[\s◌])")
WORD = re.compile(r"[^\s(){}\[\],;.\"«»`:|]+")
DECLARED = re.compile(r"^( *)((?:abbrev |unfoldable |pub |ruleset )*)([^\s(){},:]+)((?: *[({][^=]*[)}])*) :(?: |$)(.*)$")
TYPED = re.compile(r"^( *)((?:abbrev |unfoldable |pub )*)(record|data) ([^\s(){},:]+)")
RULES = re.compile(r"^( *)((?:pub )*)ruleset ([^\s(){},:=]+)")
USE = re.compile(r"use ([A-Za-z0-9_.·+-]+)\.\{([^}]*)\}")


def crates():
    return sorted(c for c in os.listdir("crates") if os.path.isdir(f"crates/{c}/src"))


def files(*ends):
    for folder, dirs, names in os.walk("crates"):
        dirs[:] = sorted(d for d in dirs if d != "out")
        for n in sorted(names):
            if n.endswith(ends):
                yield os.path.join(folder, n)


def read(path):
    with open(path, encoding="utf-8") as f:
        return f.read()


def is_own(module, own):
    return module.split(".")[0] == "Rattle" and len(module.split(".")) > 1 and module.split(".")[1] in own


def declared(text):
    """Each name that a file declares, with whether it is a definition's (a type, a constructor or a field too) or a goal's."""
    for line in text.split("\n"):
        if line.lstrip().startswith("--"):
            continue
        t = TYPED.match(line) or RULES.match(line)
        if t:
            yield t.group(t.lastindex), line, False
            continue
        d = DECLARED.match(line)
        if d and d.group(3) not in ("λ", "let", "use"):
            yield d.group(3), line, re.match(r"(tie|goal)\.", d.group(5)) is not None


def foreign(text, own):
    """Names that a file has from other libraries."""
    found = set()
    for m in USE.finditer(text):
        if not is_own(m.group(1), own):
            for it in m.group(2).split(","):
                found.add(it.split(" as ")[-1].strip())
                found.add(it.split(" as ")[0].strip())
    return found


def snake(name, is_type):
    """In snake case; a type in camel case. A fact's name at the head of a lemma's keeps its capital."""
    if is_type and name[0].isupper():
        first, *more = name.split("-")
        return first + "".join(w[:1].upper() + w[1:] for w in more)
    return name.replace("-", "_")


def spelling():
    own = set(crates())
    defs, lemmas = {}, {}
    for path in files(".antt"):
        text = read(path)
        in_specs = "/specs/" in path
        for name, line, of_goal in declared(text):
            if of_goal:
                continue
            (defs if in_specs else lemmas).setdefault(name, set()).add(path)
    made = {n: snake(n, n in defs) for n in sorted({*defs, *lemmas}) if "-" in n and "◌" not in n}
    return own, defs, lemmas, made


def turn(text, made, kept, code):
    """The text with each name in its new spelling: in code everywhere, in a comment between backticks."""

    def one(m):
        w = m.group(0)
        return made.get(w, w) if w not in kept else w

    out = []
    mark = "//" if code == "rt" else "--"
    for line in text.split("\n"):
        at = len(line)
        for m in re.finditer(r'"(?:[^"\\]|\\.)*"|' + ("//" if code == "rt" else r"(?:^|(?<=\s))--(?=\s|$)"), line):
            if m.group(0) == mark:
                at = m.start()
                break
        head, tail = line[:at], line[at:]
        parts = re.split(r'("(?:[^"\\]|\\.)*")', head)
        head = "".join(p if p.startswith('"') and i % 2 else WORD.sub(one, p) for i, p in enumerate(parts))
        if code != "rt" or re.match(r"\s*(ghost use|requires|ensures)\b", head):
            head = CHOICE.sub("when", head)
        tail = re.sub(r"`[^`]*`", lambda b: WORD.sub(one, b.group(0)), tail)
        out.append(head + tail)
    return "\n".join(out)


def write(path, text):
    with open(path, "w", encoding="utf-8") as f:
        f.write(text)


def main(argv):
    own, defs, lemmas, made = spelling()
    if argv == ["--list"]:
        for n in sorted(made):
            print(n, made[n], "definition" if n in defs else "lemma")
        return 0
    # names that would fall together: in one file, the new spelling of one with another that stands there
    bad = 0
    for path in files(".antt"):
        text = read(path)
        here = {n for n, _, _ in declared(text)}
        for m in USE.finditer(text):
            here |= {it.split(" as ")[-1].strip() for it in m.group(2).split(",")}
        new = collections.defaultdict(set)
        for n in here:
            new[made.get(n, n) if n not in foreign(text, own) else n].add(n)
        for n, olds in new.items():
            if len(olds) > 1:
                print(f"look: {path}: {', '.join(sorted(olds))} would all be {n}")
                bad += 1
    for path in files(".antt", ".rt"):
        text = read(path)
        text = turn(text, made, foreign(text, own), "rt" if path.endswith(".rt") else "antt")
        if path.endswith(".rt"):
            # a namespace is a module, and no dot in a name: `Toi·after` of Rattle's own script
            text = ALIAS.sub(lambda m: m.group(1).lower() + "_" + m.group(2), text)
        write(path, text)
    for top in ("crates", "edits"):
        for folder, _, names in os.walk(top):
            for n in names:
                if n.endswith(".edit"):
                    path = os.path.join(folder, n)
                    text = read(path)
                    write(path, turn(text, made, set(), "antt" if re.search(r"(?m)^file: .*\.antt$", text) else "rt"))
    for path in ["README.md"] + [os.path.join(f, n) for f, _, ns in os.walk("docs") for n in ns if n.endswith(".md")]:
        text = read(path)
        write(path, re.sub(r"`[^`\n]*`", lambda b: WORD.sub(lambda m: made.get(m.group(0), m.group(0)), b.group(0)), text))
    print(f"{len(made)} names, {bad} places to look at")
    return 0


if __name__ == "__main__":
    raise SystemExit(main(sys.argv[1:]))
