#!/usr/bin/env python3
"""Brings the repository's own names in specs/, proofs/, clauses, edits and pages to today's spelling, after the kit's port.py.

usage: python3 tools/respell.py        at the top of the repository, once

A definition in camel case gets snake case (`liveNode`: `live_node`); a definition that is a type gets a capital. A field and a
constructor get underscores for dashes. A lemma keeps a dash between two names of definitions, and else gets an underscore; where that is
another's name it gets `_lem` after it. Names from src/, of the goals in Proof.antt and of the kit stay as they are.
It prints the names that would fall together, and writes tools/respelled.tsv: old name, new name, kind.
"""

import collections
import os
import re
import sys

TOP = "crates"
TOKEN = re.compile(r"[^\s(){}\[\],;.λ\"`]+")
SIGNATURE = re.compile(r"^(\s*)((?:abbrev |unfoldable |pub )*)([^\s:(){}\[\],;=λ]+) : (.*)$")
# port.py gave a lemma and a definition one name in some files of the few that it left.
BY_HAND = [
    ("crates/collapsing/proofs/collapse_ready/Proof.antt", "room_for", "room_for_lem"),
    ("crates/collapsing/proofs/Grouped.antt", "roomFor", "room_for"),
    ("crates/formed/proofs/well_formed/Proof.antt", "roomFor", "room_for"),
]
KNOWN_WORDS = set("length take drop map reverse sum filter all any set sets cond suc zero min max not refl sym append concat head tail".split())


def files(*endings):
    for folder, dirs, names in os.walk(TOP):
        dirs[:] = sorted(d for d in dirs if d != "out")
        for name in sorted(names):
            if name.endswith(endings):
                yield os.path.join(folder, name)


def read(path):
    with open(path, encoding="utf-8") as f:
        return f.read()


def snake(name):
    return re.sub(r"(?<=[a-z0-9'])(?=[A-Z])", "_", name).lower()


def declared(path):
    """Yields (name, kind) of each declaration: def, type, field, constructor, lemma or need."""
    block, inside = None, 0
    for line in read(path).split("\n"):
        if not line.strip() or line.lstrip().startswith("--"):
            continue
        indent = len(line) - len(line.lstrip())
        head = re.match(r"^(\s*)(?:pub )?(record|data) (\S+)", line)
        if head and not line.lstrip().startswith("record {"):
            block, inside = head.group(2), indent
            yield head.group(3), "type"
            continue
        if block and indent <= inside:
            block = None
        m = SIGNATURE.match(line)
        if not m or line.lstrip().startswith(("let ", "use ", "module ", "elim ")):
            continue
        marks, name, is_of = m.group(2), m.group(3), m.group(4)
        if block == "record":
            yield name, "field"
        elif block == "data":
            yield name, "constructor"
        elif is_of.startswith("tie."):
            yield name, "need"
        elif "abbrev" in marks or "unfoldable" in marks:
            yield name, "type" if re.search(r"Type [01]$", is_of.rstrip()) else "def"
        else:
            yield name, "lemma"


def imported(text):
    """The names that a file brings in from the kit, and not from this repository."""
    own = set(os.listdir(TOP))
    got = set()
    for m in re.finditer(r"use ([^\s{]+)\.\{([^}]*)\}", text):
        parts = m.group(1).split(".")
        if parts[0] == "Rattle" and parts[1] in own:
            continue
        got |= {n.strip().split(" as ")[0] for n in m.group(2).split(",")}
    return got


def joined(name, known):
    """A lemma's name: the longest runs of parts that are known names, joined by a dash where both sides are known, else by '_'."""
    parts, groups, i = name.split("-"), [], 0
    while i < len(parts):
        for j in range(len(parts), i, -1):
            word = "_".join(snake(p) if p[:1].islower() else p for p in parts[i:j])
            if word in known or j == i + 1:
                groups.append((word, word in known))
                i = j
                break
    out = groups[0][0]
    for (_, a), (word, b) in zip(groups, groups[1:]):
        out += ("-" if a and b else "_") + word
    return out


def plan():
    kinds = collections.defaultdict(set)
    per_file = {}
    used = collections.defaultdict(set)
    for path in files(".antt"):
        text = read(path)
        mine = list(declared(path))
        per_file[path] = ({n for n, k in mine if k == "need"}, imported(text), {n for n, k in mine if k != "need"})
        for name, kind in mine:
            if kind != "need":
                kinds[name].add(kind)
        for m in TOKEN.finditer(text):
            if text[m.start() - 1] != ".":
                used[m.group()].add(path)
    new, said = {}, []
    defs = {n for n, k in kinds.items() if k & {"def", "type"}}
    for name in sorted(defs):
        if re.search(r"[a-z0-9'][A-Z]", name) and name[0].islower():
            new[name] = name[0].upper() + name[1:] if kinds[name] == {"type"} else (joined(snake(name), set()) if "-" in name else snake(name))
        elif "-" in name:
            new[name] = name.replace("-", "_")
    # port.py respelled some lemmas that are named after a definition as that definition is spelled now
    taken = {new.get(n, n) for n in defs} | KNOWN_WORDS
    known = taken | {n for n in used if re.fullmatch(r"[a-z][a-z0-9]*", n) and n in KNOWN_WORDS}
    for name in sorted(kinds):
        kind = kinds[name]
        if name in new or kind & {"def", "type"}:
            continue
        if kind <= {"field", "constructor"}:
            if "-" in name or re.search(r"[a-z][A-Z]", name):
                new[name] = snake(name).replace("-", "_")
        elif "-" in name or re.search(r"[a-z][A-Z]", name):
            word = joined(name, known)
            if "field" in kind:
                word = snake(name).replace("-", "_")
            if word != name:
                if "field" not in kind and (word in used or word in taken):
                    word += "_lem"
                if "field" not in kind and word in used:
                    said.append(f"{name}: {word} is there already")
                    continue
                new[name] = word
        elif name in taken and "lemma" in kind and "_" in name and not kind & {"field"}:
            new[name] = name + "_lem"
    back = collections.defaultdict(set)
    for name, word in new.items():
        back[word].add(name)
    for word, names in sorted(back.items()):
        dashed = sorted(n for n in names if "-" in n)
        if len(names) > 1 and dashed and len(dashed) == len(names) - 1:
            for n in dashed:
                if "field" not in kinds[n]:
                    new[n] = word + "_lem"
        elif len(names) > 1:
            said.append(f"{word}: {', '.join(sorted(names))}")
    return kinds, new, per_file, said


def turned(text, new, fields, stay, comment, lemmas=()):
    """text with its names respelled; after a point only fields, or what a module's alias brings. lemmas: names that are a field's too,
    but a lemma's in this file."""
    aliases = set(re.findall(r"^use \S+ as (\w[\w-]*)$", text, re.M)) | {m.split(".")[-1] for m in re.findall(r"^use ([\w.+-]+)$", text, re.M)}
    aliases -= {"goal", "tie"}
    out, at = [], 0
    for m in TOKEN.finditer(text):
        word = m.group()
        if word not in new or word in stay:
            continue
        before = text[m.start() - 1] if m.start() else " "
        if before == "." and word not in fields and not re.search(r"(?<![\w.])(" + "|".join(aliases or ["(?!)"]) + r")\.$", text[: m.start()][-60:]):
            continue
        start = text.rfind("\n", 0, m.start()) + 1
        mark = text.find(comment, start, m.start())
        if mark >= 0 and not re.search(r"[a-z][A-Z]", word):
            continue
        literal = text[: m.start()].rstrip()[-1:] in ("{", ";") and text[m.end() : m.end() + 3] == " = "
        out.append(text[at : m.start()])
        out.append(new[word] + ("_lem" if word in lemmas and before != "." and not literal else ""))
        at = m.end()
    out.append(text[at:])
    return "".join(out)


def main():
    kinds, new, per_file, said = plan()
    fields = {n for n in new if "field" in kinds[n]}
    taken = {new.get(n, n) for n, k in kinds.items() if k & {"def", "type"}}
    both = {n for n in fields if "lemma" in kinds[n] and new[n] in taken}
    code = {n: w for n, w in new.items() if "-" in n or re.search(r"[a-z][A-Z]", n)}
    for path in files(".antt", ".rt", ".edit"):
        text = read(path)
        needs, theirs, mine = per_file.get(path, (set(), imported(text), set()))
        lemmas = {n for n, k in declared(path) if k == "lemma" and n in both} if path.endswith(".antt") else set()
        for m in re.finditer(r"use ([^\s{]+)\.\{([^}]*)\}", text):
            lemmas |= both & {n.strip() for n in m.group(2).split(",")}
        words = turned(text, new if path.endswith(".antt") else code, fields, needs | (theirs - mine), "//" if path.endswith(".rt") else "--", lemmas)
        for place, old, word in BY_HAND:
            if place == path:
                words = re.sub(r"(?<![\w.-])" + old + r"(?![\w-])", word, words)
        if words != text:
            with open(path, "w", encoding="utf-8") as f:
                f.write(words)
    for path in ["README.md"] + ["docs/" + n for n in sorted(os.listdir("docs")) if n.endswith(".md")]:
        text = read(path)
        words = re.sub(r"`([^`\n]+)`", lambda m: "`" + code.get(m.group(1), m.group(1)) + "`", text)
        if words != text:
            with open(path, "w", encoding="utf-8") as f:
                f.write(words)
    with open("tools/respelled.tsv", "w", encoding="utf-8") as f:
        for name in sorted(new):
            f.write(f"{name}\t{new[name]}\t{'/'.join(sorted(kinds[name]))}\n")
    print(f"{len(new)} names; {len(said)} to look at")
    print("\n".join(said))


if __name__ == "__main__":
    sys.exit(main())
