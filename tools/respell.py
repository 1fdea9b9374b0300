#!/usr/bin/env python3
"""Respells the repository's own definitions and lemmas in snake case, once, after port.py.

usage: python3 tools/respell.py            at the top of the repository, over what port.py left

A name with a dash that some file of specs/ or proofs/ declares, or binds as is-22h, gets underscores: address-of becomes
address_of. Names of the library and names that the checker makes (loop-item, returns-then-same) keep theirs. In the files
of one function's proof (proofs/F/Answers.antt, Invariants.antt) a name behind a dot is the checker's, and stays.
Three lemmas on single bits would fall together with the library's bit_and, bit_or and bit_xor: they are named after their
left sides. Functions, strings and data are not touched.
"""

import os
import re
import sys

APART = {"bit-and": "bit-bit_and", "bit-or": "bit-bit_or", "bit-xor": "bit-bit_xor"}
BOUND = {"is-22h"}
DECLARED = re.compile(r"^\s*(?:abbrev |unfoldable )?(?:pub )?(?:record |data )?([A-Za-z][\w'-]*-[\w'-]*)(?: \(.*\)| \{.*\})? :(?: |$)")
TOKEN = re.compile(r"(?<![\w'-])[A-Za-z][\w']*(?:-[\w']+)+(?![\w'-])")


def files(ending, part=""):
    for folder, dirs, names in os.walk("crates"):
        dirs[:] = sorted(d for d in dirs if d not in ("out", "must-fail"))
        for name in sorted(names):
            path = os.path.join(folder, name)
            if name.endswith(ending) and part in path:
                yield path


def of_a_function(path):
    return os.path.basename(path) in ("Answers.antt", "Invariants.antt")


def own_names():
    own = set(BOUND)
    for path in files(".antt"):
        if of_a_function(path):
            continue
        with open(path, encoding="utf-8") as f:
            for line in f:
                m = DECLARED.match(line)
                if m:
                    own.add(m.group(1))
    return own


def respelled(text, own, behind_dots):
    def turn(m):
        name = m.group()
        dotted = m.start() > 0 and text[m.start() - 1] == "."
        if name not in own or (dotted and not behind_dots):
            return name
        return APART.get(name, name.replace("-", "_"))

    return TOKEN.sub(turn, text)


def main():
    own = own_names()
    turned = {APART.get(n, n.replace("-", "_")) for n in own}
    if len(turned) != len(own):
        sys.exit("respell: two names fall together")
    for path in list(files(".antt")) + list(files(".rt", "/src/")):
        with open(path, encoding="utf-8") as f:
            old = f.read()
        new = respelled(old, own, not of_a_function(path))
        if new != old:
            with open(path, "w", encoding="utf-8") as f:
                f.write(new)
    print(f"respell: {len(own)} names")


main()
