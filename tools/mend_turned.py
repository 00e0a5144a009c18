#!/usr/bin/env python3
"""Mends what tools/turn_proofs.py leaves: the import of `[]`, `pub` in Invariants.antt, and names of parameters.

usage: python3 tools/mend_turned.py CRATE..
"""

import glob
import re
import sys

from turn_proofs import read, write


def empty_list(text):
    body = re.sub(r"^use .*$|--.*$", "", text, flags=re.M)
    lines = " ".join(re.findall(r"^use .*$", text, re.M))
    if not re.search(r"(?<![^\s(])\[\]", body) or "[]" in lines:
        return text
    if re.search(r"^use mathlib.Core.List.\{", text, re.M):
        return re.sub(r"^use mathlib.Core.List.\{", "use mathlib.Core.List.{[], ", text, count=1, flags=re.M)
    return "use mathlib.Core.List.{[]}\n" + text


def public(text):
    out, inside = [], False
    for line in text.split("\n"):
        if re.match(r"(pub )?(record|data) ", line):
            inside = True
            line = line if line.startswith("pub ") else "pub " + line
        elif inside and re.match(r"  [^\s:]+ : ", line) and not line.startswith("  pub "):
            line = "  pub " + line[2:]
        elif line.strip() and not line.startswith(" "):
            inside = False
            line = re.sub(r"^abbrev (?!pub )", "abbrev pub ", line)
        out.append(line)
    return "\n".join(out)


def parameters(crate):
    code = "".join(read(p) for p in glob.glob(f"crates/{crate}/src/**/*.rt", recursive=True))
    return {n for n in re.findall(r"\b([a-z]\w*_\w+): ", code)}


def main(crates):
    for crate in crates:
        names = {n.replace("_", "-"): n for n in parameters(crate)}
        for path in glob.glob(f"crates/{crate}/proofs/**/*.antt", recursive=True):
            old = text = read(path)
            if path.endswith(("Answers.antt", "Invariants.antt")):
                text = empty_list(text)
                text = re.sub(r"(?<=\.)[a-z]+(?:-[a-z]+)+(?![\w-])", lambda m: names.get(m[0], m[0]), text)
            if path.endswith("Invariants.antt"):
                text = public(text)
            if text != old:
                write(path, text)


main(sys.argv[1:])
