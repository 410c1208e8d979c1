#!/usr/bin/env python3
"""Brings the repository's own definitions and lemmas to one spelling: words in snake case, types and facts in camel case.

usage: python3 tools/spell.py        at the top of the repository, with everything committed

A name counts as the repository's own where a file of specs/ or proofs/ declares it and the declaration is no answer to a goal that the
toolchain names. Names of functions, of libraries and of goals stay, and so do comments. Names that would fall together are printed, and then nothing is written.
"""

import collections
import os
import re
import sys

NAME = r"[^\s(){}\[\]:;,.\"λ→|]+"
KEYED = re.compile(r"^(\s*)((?:(?:abbrev|pub|unfoldable|record|data)\s+)+)(" + NAME + r")")
PLAIN = re.compile(r"^(\s*)(" + NAME + r")\s*:(?:\s|$)")
ANSWER = re.compile(r":\s*goal\.")
TOKEN = re.compile(r"[^\s(){}\[\]:;,.\"·`←]+")
FOREIGN = re.compile(r"use (?!Rattle\.(?:%s)\.)([\w.]+)\.\{([^}]*)\}")


def files(endings, folders):
    for top in folders:
        for folder, dirs, names in os.walk(top):
            dirs[:] = sorted(d for d in dirs if d not in ("out", ".git"))
            for name in sorted(names):
                if name.endswith(endings):
                    yield os.path.join(folder, name)


def read(path):
    with open(path, encoding="utf-8") as f:
        return f.read()


def declared():
    own = collections.defaultdict(set)
    for path in files((".antt",), ["crates"]):
        for line in read(path).splitlines():
            if re.match(r"\s*--", line) or ANSWER.search(line):
                continue
            keyed = KEYED.match(line)
            plain = None if keyed else PLAIN.match(line)
            if keyed:
                own[keyed.group(3)].add(path)
            elif plain:
                own[plain.group(2)].add(path)
    return own


def spelled(name):
    words = name.split("-")
    if name[0].isupper():
        return "".join(w[:1].upper() + w[1:] for w in words)
    return "_".join(words)


def main():
    own = declared()
    turn = {n: spelled(n) for n in own if re.fullmatch(r"[A-Za-z0-9_']+(?:-[A-Za-z0-9_']+)+", n)}
    together = collections.defaultdict(set)
    for n in own:
        together[turn.get(n, n)].add(n)
    clash = {k: v for k, v in together.items() if len(v) > 1}
    crates = sorted(os.listdir("crates"))
    foreign = re.compile(FOREIGN.pattern % "|".join(crates))
    for path in files((".antt", ".rt"), ["crates"]):
        for m in foreign.finditer(read(path)):
            for n in re.split(r"[,\s]+", m.group(2)):
                if n in turn:
                    clash[n] = {m.group(1), path}
    if clash:
        for k, v in sorted(clash.items()):
            print(f"falls together: {k}: {sorted(v)}")
        sys.exit(1)
    changed = 0
    for path in files((".antt", ".rt", ".edit", ".md"), ["crates", "docs"]):
        old = read(path)
        lines = old.splitlines(keepends=True)
        new = "".join(l if re.match(r"\s*(--|//)", l) else TOKEN.sub(lambda m: turn.get(m.group(0), m.group(0)), l) for l in lines)
        if new != old:
            changed += 1
            with open(path, "w", encoding="utf-8") as f:
                f.write(new)
    print(f"{len(turn)} names, {changed} files")


main()
