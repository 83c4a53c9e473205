#!/usr/bin/env python3
"""Brings the names of this repository's own definitions and lemmas to snake case: `net-cases` becomes `net_cases`.

Run at the top of the repository, after port.py. A name is turned where a file of specs/ or a lemma file of proofs/
declares it; names of the library, names that Rattle makes, functions, strings, inputs and outputs stay.
"""
import glob
import os
import re
import sys

# also a name of the library
KEPT = {"le-leb"}
# names bound by a lambda or a let, in the same files
BOUND = {"d-is", "g-is", "n-is", "handed-is", "long-too", "struck-too", "no-empty", "open-day", "price-none", "rest-same", "target-cell",
         "checks-tried", "head-tried", "order-tried", "rules-tried", "totals-tried", "words-tried"}
DECLARED = re.compile(r"^\s*(?:pub |abbrev |unfoldable |record |data |\| )*([^\s(){}:]+)(?: [^:\n=]*)? :", re.M)
WORD = re.compile(r"[^\s(){}\[\],;.`\"]+")
TURNED = {"getElem-numbered": "get_elem_numbered", "getElem-from": "get_elem_from"}


def main():
    lemmas = glob.glob("crates/*/specs/**/*.antt", recursive=True) + glob.glob("crates/*/proofs/*.antt")
    names = {}
    for path in lemmas:
        with open(path) as f:
            for m in DECLARED.finditer(f.read()):
                if re.search(r"\w-\w", m.group(1)) and m.group(1) not in KEPT:
                    names[m.group(1)] = TURNED.get(m.group(1), m.group(1).replace("-", "_"))
    for n in BOUND:
        names[n] = n.replace("-", "_")
    back = {}
    for old, new in names.items():
        if back.setdefault(new, old) != old:
            sys.exit(f"{old} and {back[new]} fall together")

    def turn(text):
        return WORD.sub(lambda m: names.get(m.group(0), m.group(0)), text)

    proofs = glob.glob("crates/*/proofs/*/*.antt")
    for path in lemmas + proofs + glob.glob("crates/*/src/*.rt") + glob.glob("crates/*/must-fail/*.edit"):
        with open(path) as f:
            lines = f.read().split("\n")
        out = []
        for line in lines:
            if path.endswith(".rt"):
                code = line.strip()
                if '"' in code or code.startswith("//"):
                    out.append(line)
                    continue
            out.append(turn(line))
        if out != lines:
            with open(path, "w") as f:
                f.write("\n".join(out))
    print(f"{len(names)} names")


main()
