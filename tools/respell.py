#!/usr/bin/env python3
"""Spells the repository's own names as today's Rattle does, after port.py, once: python3 tools/respell.py at the top.

A definition, a field and a variable are in snake case. A lemma is too, but a dash stays between two names of definitions where the
lemma's name begins with nothing else, as in length-padded; getD is get_or. Names of src/, exported names, strings and outputs stay.
It turns the .antt files, the clauses and comments of .rt files, the must-fail edits and the names in docs/.
"""

import glob
import re
import sys

# what a name is made of: all but blanks, brackets and marks
WORD = re.compile(r"[^\s(){}\[\],;.«»|\"`:/*]+")
DEFINED = re.compile(
    r"^\s*(?:abbrev |unfoldable )?(?:pub )?(?:abbrev |unfoldable )?([a-z0-9_][^\s(){}\[\],;.:]*(?:\s+[a-z][^\s(){}\[\],;.:]*)*)\s*:\s", re.M
)
TOP = re.compile(r"^(?:abbrev |unfoldable )?pub (?:abbrev |unfoldable )?([a-z][^\s(){}\[\],;.:]*)\s*:\s", re.M)
LIBRARY = {"length", "take", "drop", "set", "get_or", "append", "map", "replicate", "sum", "reverse", "filter", "zip", "min", "max", "not", "and", "or"}
# variables that a pattern or a binder alone makes
BOUND = "held-opening names-free no-character not-bad other-whole over-masks q-end q-model q-over q-spent q-step whole-bytes yes-same z-low".split()
# not-true is the library's too, and two would fall together with names of the library
KEPT = {"not-true"}
OTHER = {"bit-xor": "bit-bit_xor", "slice-val": "the_slice_val"}
# these are words of English in comments and documents
ENGLISH = {"non-empty", "one-clause", "set-up", "sub-list"}


def read(path):
    with open(path, encoding="utf-8") as f:
        return f.read()


def files(*patterns):
    return sorted(p for g in patterns for p in glob.glob(g, recursive=True))


def own_files():
    return files("crates/*/specs/*.antt", "crates/*/proofs/*.antt")


def spelled(name, known):
    """The name of a lemma: parts that are names, joined by dashes, and then plain words, joined by underscores."""
    words = name.replace("getD", "get_or").split("-")
    out, at, names = "", 0, True
    while at < len(words):
        for end in range(len(words), at, -1):
            part = "_".join(words[at:end])
            if part in known:
                break
        else:
            end, part = at + 1, words[at]
        is_name = part in known
        out += part if not out else ("-" if names and is_name else "_") + part
        names = names and is_name
        at = end
    return out


def table():
    definitions, lemmas, defined = set(), set(), set(BOUND)
    for p in own_files():
        text = read(p)
        (definitions if "/specs/" in p else lemmas).update(TOP.findall(text))
        for m in DEFINED.finditer(text):
            defined.update(m.group(1).split())
    known = {d.replace("-", "_") for d in definitions} | LIBRARY
    lemmas -= definitions
    to = {}
    for n in defined:
        if "-" in n or "getD" in n:
            to[n] = spelled(n, known) if n in lemmas else n.replace("getD", "get_or").replace("-", "_")
    return {a: b for a, b in (to | OTHER).items() if a != b and a not in KEPT}


def turn(text, to, keep=frozenset()):
    return WORD.sub(lambda m: to.get(m.group(0), m.group(0)) if m.group(0) not in keep else m.group(0), text)


def turn_antt(text, to):
    out = []
    for line in text.split("\n"):
        code, dash, comment = line, "", ""
        m = re.search(r"(^|\s)--(\s|$)", line)
        if m:
            code, dash, comment = line[: m.start()], line[m.start() : m.end()], line[m.end() :]
        out.append(turn(code, to) + dash + turn(comment, to, ENGLISH))
    return "\n".join(out)


def turn_rt(text, to):
    """Clauses, ghost imports and comments; the code stays."""
    out, depth = [], 0
    for line in text.split("\n"):
        s = line.strip()
        if depth > 0 or re.match(r"(requires|ensures|ghost)\b", s):
            turned = turn(line, to)
            depth = max(0, depth + line.count("{") - line.count("}")) if not s.startswith("ghost use") else 0
            out.append(turned)
        elif s.startswith("//"):
            out.append(turn(line, to, ENGLISH))
        else:
            out.append(line)
    return "\n".join(out)


def turn_docs(text, to):
    """Names between backticks, and in the files of statements that docs/ quotes."""
    return re.sub(r"`[^`\n]+`", lambda m: turn(m.group(0), to, ENGLISH), text)


def main():
    to = table()
    taken = {}
    for a, b in sorted(to.items()):
        taken.setdefault(b, []).append(a)
    for b, names in taken.items():
        if len(names) > 1:
            print("fall together:", b, names)
    if "--table" in sys.argv:
        for a, b in sorted(to.items()):
            print(a, b)
        return
    jobs = [
        (files("crates/*/specs/**/*.antt", "crates/*/proofs/**/*.antt"), turn_antt),
        (files("crates/*/src/**/*.rt"), turn_rt),
        (files("crates/*/must-fail/*.edit"), turn_antt),
        (files("README.md", "CONTRIBUTING.md", "docs/*.md", "docs/changes/*.md", "crates/**/README.md"), turn_docs),
    ]
    n = 0
    for paths, how in jobs:
        for p in paths:
            before = read(p)
            after = how(before, to)
            if after != before:
                n += 1
                with open(p, "w", encoding="utf-8") as f:
                    f.write(after)
    print(f"respell: {len(to)} names, {n} files")


if __name__ == "__main__":
    main()
