#!/usr/bin/env python3
"""Turns each old crates/CRATE/proofs/**/Proof.antt that ends in `tie.close (tie.spec ..)` into Invariants.antt and Answers.antt.

usage: python3 tools/turn_proofs.py [--names DIR] CRATE..      turns the files of the crates (at the top of the repository)
       python3 tools/turn_proofs.py --prune CRATE..            checks, takes out answers that fail, checks again, lists what stays open

A crate's sources must pass the front end. Commit first: files are rewritten and deleted in place; a second run finds nothing to do.
What could not be turned is printed as 'left: FILE: ..' and its text stays in Answers.antt.
"""

import glob
import json
import os
import re
import subprocess
import sys
import tempfile

W = r"[^\s(){}.;,@\"«»\[\]\\]+"
TOKEN = re.compile(r"--[^\n]*|\"(?:[^\"\\]|\\.)*\"|«[^»]*»|%s(?:\.%s)*|\s+|." % (W, W), re.S)
START = {"args", "requires", "ranges", "utf8", "captures", "type-inv", "well-formed"}
norm = lambda it: re.sub(r"[-_]+", "-", it)
# The step of a name that older scripts took for a lemma of antt, as `len_of_lem`, `Node-kept` or `well-formed-2`.
loose = lambda it: re.sub(r"[-_]", "", re.sub(r"_lem(?=\d*$)", "", it)).lower()
# Where --prune leaves what stays open.
OPEN = os.path.join(tempfile.gettempdir(), "open")
LEFT = []


def left(path, text):
    LEFT.append(f"left: {path}: {text}")
    print(LEFT[-1])


def read(path):
    with open(path, encoding="utf-8") as it:
        return it.read()


def write(path, text):
    with open(path, "w", encoding="utf-8") as it:
        it.write(text)


# ---------------------------------------------------------------- the old file, in blocks


class Block:
    def __init__(self, text):
        self.text = text
        lines = text.split("\n")
        n = 0
        while n < len(lines) and lines[n].startswith("--"):
            n += 1
        self.comment = "\n".join(lines[:n])
        self.body = "\n".join(lines[n:])
        self.kind, self.names, self.type, self.mods = "text", [], "", ""
        m = re.match(r"((?:(?:pub|abbrev|unfoldable|opaque) )*)(%s) :\s" % W, self.body)
        if m:
            self.mods, name = m[1], m[2]
            rest = self.body[m.end() :]
            # the signature ends where a line begins with no space
            k = re.search(r"\n(?=\S)", rest)
            self.type = rest[: k.start()] if k else rest
            after = rest[k.end() :] if k else ""
            u = re.match(r"unfolding ([^\n]*)\n", after)
            self.unfolding = u[1] if u else ""
            self.code = after[u.end() :] if u else after
            self.names = [name]
            self.kind = "item"
            ends = re.search(r"(?m)^%s(?=[\s])" % re.escape(name), self.code)
            self.clauses = len(re.findall(r"(?m)^%s(?=\s)" % re.escape(name), self.code))
            _ = ends
        elif re.match(r"module\b", self.body):
            self.kind = "module"
            self.names = re.findall(r"(?m)^\s+(?:(?:pub|abbrev|unfoldable) )*(%s) :\s" % W, self.body)
        else:
            self.names = re.findall(r"(?m)^(?:(?:pub|abbrev|unfoldable|data|record|ruleset) )+(%s)" % W, self.body)
            self.kind = "record" if re.search(r"(?m)^(?:pub )?(?:record|data) ", self.body) else self.kind

    def clause(self):
        """Returns the arguments and the body of the one clause."""
        m = re.match(r"(%s)((?:\s+%s)*?)\s+=(?=\s)\s*" % (W, W), self.code)
        if not m:
            return None
        return m[2].split(), self.code[m.end() :].rstrip()


def split(text):
    """Returns the use lines and the blocks."""
    uses, rest = [], []
    lines = text.split("\n")
    at = 0
    head = []
    while at < len(lines) and (lines[at].startswith(("use ", "pub use ", "--")) or not lines[at].strip()):
        if lines[at].startswith("--"):
            k = at
            while k < len(lines) and lines[k].startswith("--"):
                k += 1
            nxt = k
            while nxt < len(lines) and not lines[nxt].strip():
                nxt += 1
            if nxt < len(lines) and not lines[nxt].startswith("use "):
                break
            head += lines[at:k]
            at = k
            continue
        if lines[at].strip():
            line = lines[at]
            while line.count("{") > line.count("}"):
                at += 1
                line += " " + lines[at].strip()
            uses.append(line)
        at += 1
    blocks, now = [], []
    for line in lines[at:]:
        if not line.strip():
            now.append(line)
            continue
        gap = now and not now[-1].strip()
        if gap and not line.startswith(" "):
            blocks.append("\n".join(now).strip("\n"))
            now = []
        now.append(line)
    blocks.append("\n".join(now).strip("\n"))
    return head, uses, [Block(it) for it in blocks if it.strip()]


# ---------------------------------------------------------------- one function's names


class Names:
    def __init__(self, of):
        self.of = of
        self.places = of["places"]
        self.at = {}
        for k, p in enumerate(self.places):
            self.at.setdefault(norm(p[0]), k)
        self.needs, self.new_needs = {}, {}
        for (old, new), (place, _) in zip(of["needs"], of["asked_at"]):
            self.needs.setdefault(self.key(old), (new, self.at.get(norm(place))))
            self.new_needs.setdefault(norm(new), (new, self.at.get(norm(place))))
        self.loops = {norm(old): (new, live, changed) for ((old, new), live), changed in zip(of["loops"], of["changed"])}

    @staticmethod
    def key(it):
        return re.sub(r"^overflow-", "", norm(it))

    def need(self, old):
        k = self.key(old)
        return self.needs.get(k) or self.new_needs.get(norm(old))

    def prev(self, k):
        p = self.places[k][1]
        return None if p is None else self.at.get(norm(p))

    def up(self, k):
        while k is not None:
            yield k
            k = self.prev(k)


class Cannot(Exception):
    pass


class Turner:
    """Turns terms of one file. 'env' maps a name to ('place', k), ('prod', text, fields), ('new', text, params) or ('text', text)."""

    def __init__(self, names, path, lemmas):
        self.n, self.path, self.lemmas = names, path, lemmas
        self.hoisted, self.unfolding, self.problems, self.where = [], [], [], None

    def step(self, k, field):
        """Returns the place whose step has that old name, from the place k upward."""
        f = norm(field)
        if norm(self.n.places[k][2][0]) != f and loose(self.n.places[k][2][0]) == loose(field):
            return k
        for it in self.n.up(k):
            if norm(self.n.places[it][2][0]) == f:
                return it
        for it in self.n.up(k):
            if loose(self.n.places[it][2][0]) == loose(field):
                return it
        chain = list(self.n.up(self.where)) if self.where is not None else []
        for it in chain:
            if norm(self.n.places[it][2][0]) == f:
                return it
        # a step of an arm
        for it in [k, *chain]:
            arm = self.n.of["arms"][it]
            if arm and any(norm(e[1]) == f for e in arm[2]):
                return it
        all_ = [j for j, p in enumerate(self.n.places) if norm(p[2][0]) == f]
        if len(all_) == 1:
            return all_[0]
        raise Cannot(f"no step `{field}` above the place {self.n.places[k][0]}")

    def go(self, value, parts):
        """Follows the fields from a value; returns a value."""
        parts = list(parts)
        while True:
            kind = value[0]
            if not parts:
                return value
            if kind == "place":
                k = value[1]
                while parts and parts[0] == "before":
                    p = self.n.prev(k)
                    if p is None:
                        # more `before` than there are places: stay at the start
                        p = k
                    k = p
                    parts.pop(0)
                value = ("place", k)
                if not parts:
                    return value
                f = parts.pop(0)
                if not parts and norm(f) not in START:
                    it = self.step(k, f)
                    return ("step", "c." + self.n.places[it][2][1], k, f)
                if norm(f) in START:
                    text = "c." + f.replace("-", "_")
                    pre = (self.n.of.get("pre") or {}).get("fields") or []
                    value = ("prod", text, pre) if f == "requires" and len(pre) > 1 else ("text", text)
                    continue
                it = self.step(k, f)
                place, arm = self.n.places[it], self.n.of["arms"][it]
                entry = None
                for e in arm[2] if arm else []:
                    if norm(e[1]) == norm(f) and list(map(norm, e[2])) == list(map(norm, parts[: len(e[2])])):
                        if entry is None or len(e[2]) > len(entry[2]):
                            entry = e
                if entry:
                    parts = parts[len(entry[2]) :]
                    value = self.clauses(it, f"c.{arm[0]}.{entry[0]}", entry[0])
                    continue
                text = "c." + place[2][1]
                part = list(map(norm, parts))
                if parts and any(norm(e[1]) == norm(f) and list(map(norm, e[2]))[: len(part)] == part for e in (arm[2] if arm else [])):
                    # a part of what an arm says, whose fields have names of their own now
                    return ("step", text + "." + ".".join(parts), k, f, *parts)
                if parts:
                    word = parts.pop(0)
                    word = dict((norm(a), b) for a, b in place[4]).get(norm(word), word)
                    if norm(f) in self.n.loops:
                        word = {"inv": "invariant"}.get(word, word)
                    else:
                        word = {"taken": "true", "left": "false"}.get(word, word)
                    text += "." + word
                    if word in ("new", "auto") and place[3]:
                        params = self.n.of["params"].get(place[3]) or []
                        value = ("new", text, params)
                    else:
                        value = self.clauses(it, text, word)
                else:
                    value = ("text", text)
                continue
            if kind == "step":
                value, parts = ("place", value[2]), [*value[3:], *parts]
                continue
            if kind in ("new", "prod"):
                names, text = value[2], value[1]
                ones = 0
                while parts and parts[0] == "1" and ones < len(names) - (1 if kind == "prod" else 0):
                    parts.pop(0)
                    ones += 1
                last = kind == "prod" and ones == len(names) - 1
                if last or (parts and parts[0] == "0" and ones < len(names)):
                    if not last:
                        parts.pop(0)
                    value = ("text", text + "." + names[ones])
                    continue
                if not ones:
                    return ("text", text + "." + ".".join(parts))
                raise Cannot(f"part of a product: {text}{'.1' * ones}.{'.'.join(parts)}")
            if kind == "text":
                return ("text", value[1] + "." + ".".join(parts))

    def clauses(self, k, text, word):
        c = self.n.of["clauses"][k]
        if word == "ensures" and c and len(c.get("fields") or []) > 1:
            return ("prod", text, c["fields"])
        return ("text", text)

    def turn(self, text, env, fold=False):
        """Returns the turned text. With 'fold', every alias of a path is written out."""
        tokens = [m[0] for m in TOKEN.finditer(text)]
        out, env, stack, shadows = [], dict(env), [], []
        i = 0
        # scopes end where the bracket closes
        stack.append(dict(env))

        def skip(j):
            while j < len(tokens) and (tokens[j].isspace() or tokens[j].startswith("--")):
                j += 1
            return j

        _ = shadows
        while i < len(tokens):
            t = tokens[i]
            if t in "([{" and len(t) == 1:
                stack.append(dict(env))
                # a binder (x y : T) →
                j = skip(i + 1)
                names = []
                while j < len(tokens) and re.fullmatch(W, tokens[j]) and tokens[j] not in (":", "=", "λ", "let"):
                    names.append(tokens[j])
                    j = skip(j + 1)
                if names and j < len(tokens) and tokens[j] == ":" and t in "({":
                    depth, e = 1, i + 1
                    while e < len(tokens) and depth:
                        depth += (tokens[e] in ("(", "[", "{")) - (tokens[e] in (")", "]", "}"))
                        e += 1
                    if skip(e) < len(tokens) and tokens[skip(e)] in ("→", "×"):
                        inner = self.turn("".join(tokens[j : e - 1]), env, fold)
                        out.append("".join(tokens[i:j]) + inner + tokens[e - 1])
                        env = stack.pop()
                        for it in names:
                            env.pop(it, None)
                        i = e
                        continue
                out.append(t)
                i += 1
                continue
            if t in (")", "]", "}"):
                if len(stack) > 1:
                    env = stack.pop()
                out.append(t)
                i += 1
                continue
            if t in (",", ";"):
                env = dict(stack[-1])
                out.append(t)
                i += 1
                continue
            if t == "λ":
                j = skip(i + 1)
                e = j
                while e < len(tokens) and tokens[e] != ".":
                    e += 1
                binder = "".join(tokens[i:e])
                names = re.findall(W, re.sub(r":[^)]*", " ", binder))
                out.append(self.turn(binder[1:], env, fold).join(["λ", ""]) if ":" in binder else binder)
                for it in names:
                    env.pop(it, None)
                i = e
                continue
            if t == "let":
                j = skip(i + 1)
                name = tokens[j]
                eq = skip(j + 1)
                if eq < len(tokens) and tokens[eq] == "=":
                    v = skip(eq + 1)
                    after = skip(v + 1)
                    parts = tokens[v].split(".")
                    if after < len(tokens) and tokens[after] == "in" and parts[0] in env:
                        value = self.go(env[parts[0]], parts[1:])
                        if value[0] != "text" or fold:
                            env[name] = value
                            i = skip(after + 1)
                            continue
                env.pop(name, None)
                out.append(t)
                i += 1
                continue
            before = out[-1][-1:] if out else ""
            parts = t.split(".")
            if before != "." and not t.startswith(("--", '"', "«")):
                is_word = t == "at" and env.get("at", " ")[0] in ("place", "new", "prod") and skip(i + 1) < len(tokens) and tokens[skip(i + 1)] != "in"
                if parts[0] in env and not is_word:
                    value = self.go(env[parts[0]], parts[1:])
                    if value[0] == "place":
                        out.append("c")
                        self.problems.append(f"a record is passed on: {t}")
                    else:
                        out.append(value[1])
                    i += 1
                    continue
                label = skip(i + 1) < len(tokens) and tokens[skip(i + 1)] in ("=", ":") and "".join(out).rstrip()[-1:] in ("{", ";")
                if parts[0] in self.lemmas and not label:
                    j = skip(i + 1)
                    end = j + 1
                    if j + 2 < len(tokens) and tokens[j] == "(" and tokens[skip(j + 1)].split(".")[0] in env and tokens[skip(skip(j + 1) + 1)] == ")":
                        end = skip(skip(j + 1) + 1) + 1
                        j = skip(j + 1)
                    p = tokens[j].split(".") if j < len(tokens) else [""]
                    if p[0] in env:
                        value = self.go(env[p[0]], p[1:])
                        if value[0] == "place":
                            out.append(self.lemma(parts[0], value[1]))
                            i = end
                            continue
                    self.problems.append(f"a lemma of a place, `{t}`, is not applied to a place")
            out.append(t)
            i += 1
        return "".join(out)

    def lemma(self, name, k):
        """Returns the text that stands for the lemma of a place at the place k."""
        block, arg, more = self.lemmas[name]
        got = block.clause()
        if not got or block.clauses != 1:
            raise Cannot(f"the lemma of a place `{name}` has several clauses")
        args, body = got
        env = {args[0]: ("place", k)}
        if "abbrev" in block.mods and len(args) == 1:
            return "(" + one_line(self.turn(body, env, True)) + ")"
        type_ = one_line(self.turn(more, {arg: ("place", k)} if arg else {}, True))
        shown = self.turn(body, env)
        if len(args) > 1:
            shown = f"λ {' '.join(args[1:])}. {shown}"
        if block.unfolding:
            self.unfolding += [it for it in block.unfolding.split() if it not in self.unfolding]
        own = name
        same = [h for h in self.hoisted if h[0] == name or h[0].startswith(name + "-at-")]
        for h in same:
            if h[1:] == (type_, shown):
                return h[0]
        if same:
            own = f"{name}-at-{len(same) + 1}"
        self.hoisted.append((own, type_, shown))
        return own


def one_line(text):
    return re.sub(r"\s*\n\s*", " ", text.strip())


def indented(text, by):
    lines = text.split("\n")
    return "\n".join([lines[0]] + [by + it.strip() if it.strip() else it for it in lines[1:]])


def flat(body):
    """Returns the parts of a tuple whose last part may be a tuple, or None."""
    body = body.strip()
    if not (body.startswith("(") and body.endswith(")")):
        return None
    depth, parts, now = 0, [], ""
    for n, m in enumerate(list(TOKEN.finditer(body))):
        t = m[0]
        if t in ("(", "[", "{"):
            depth += 1
            if depth == 1:
                continue
        if t in (")", "]", "}"):
            depth -= 1
            if depth == 0:
                if m.end() != len(body):
                    return None
                break
        if t == "," and depth == 1:
            parts.append(now.strip())
            now = ""
            continue
        now += t
    if parts and now.strip():
        parts.append(now.strip())
    return parts if len(parts) > 1 else None


def parts_of(body, n):
    parts = flat(body)
    while parts and len(parts) < n:
        more = flat(parts[-1])
        if not more:
            return None
        parts = parts[:-1] + more
    return parts if parts and len(parts) == n else None


def as_record(body, fields):
    """Turns the tuple at the end of the body into a record of the clauses."""
    # the head: lets
    k = body.rfind(" in\n")
    candidates = [k + 4] if k >= 0 else []
    m = list(re.finditer(r"(?<=\sin)\s+(?=\()", body))
    candidates += [it.end() for it in m] + [0]
    for at in candidates:
        head, tail = body[:at], body[at:]
        lead = tail[: len(tail) - len(tail.lstrip())]
        parts = parts_of(tail, len(fields))
        if parts:
            return head + lead + "record { " + "; ".join(f"{f} = {p}" for f, p in zip(fields, parts)) + " }"
    return None


TACTIC = re.compile(r"(omega|search|grind|cc)\b")


def as_fields(body, fields):
    """Turns a body that proves all clauses at once into a record, by its parts, or once for each clause where it is a tactic's."""
    ends = [m.end() for m in re.finditer(r"(?<=\sin)\s+", body)]
    # the last `in` outside brackets
    depth, at = 0, 0
    for m in TOKEN.finditer(body):
        t = m[0]
        depth += (t in ("(", "[", "{")) - (t in (")", "]", "}"))
        if t == "in" and not depth and m.end() in {e - len(re.match(r"\s*", body[m.end() :])[0]) for e in ends}:
            at = m.end() + len(re.match(r"\s*", body[m.end() :])[0])
    head, tail = body[:at], body[at:].strip()
    if TACTIC.match(tail):
        return head + "record { " + "; ".join(f"{f} = {tail}" for f in fields) + " }"
    if len(fields) == 2 and not tail.startswith(("rw ", "(", "elim ", "λ")):
        return head + f"let both = {tail} in record {{ {fields[0]} = both.0; {fields[1]} = both.1 }}"
    return None


# ---------------------------------------------------------------- use lines


def words_of(text):
    text = re.sub(r"--[^\n]*", "", text)
    out = set()
    for m in TOKEN.finditer(text):
        t = m[0]
        if t.isspace():
            continue
        out.add(t)
        out.add(t.split(".")[0])
    return out


def is_used(name, words, text):
    name = name.split(" as ")[-1].strip()
    if name in words or name == "[]" and "[]" in text:
        return True
    if "◌" in name:
        parts = [it for it in re.split("◌|_", name) if it]
        return bool(parts) and all(it in words for it in parts)
    return False


def uses_for(uses, text, extra=""):
    words, out = words_of(text), []
    for line in uses:
        if re.search(r"\.(Statement|Tie)\b", line):
            continue
        m = re.match(r"(?:pub )?use (\S+?)\.?\{([^}]*)\}\s*$", line)
        if m:
            names = [it.strip() for it in m[2].split(",")]
            kept = [it for it in names if is_used(it, words, text)]
            if kept:
                out.append(f"use {m[1].rstrip('.')}.{{{', '.join(kept)}}}")
            continue
        m = re.match(r"use (\S+)(?: as (\S+))?$", line)
        if m:
            alias = m[2] or m[1].split(".")[-1]
            if alias in words or any(it.startswith(alias + ".") for it in words):
                out.append(line)
            continue
        out.append(line)
    return out


# ---------------------------------------------------------------- a file


def past_modules(blocks):
    """Writes out, in the rest of the file, the paths that a module over a place only names."""
    return [it for b in blocks for it in over_a_place(b)]


def over_a_place(b):
    """Returns the items of `module _ (c : tie.P) where`, each with its own parameter."""
    m = re.match(r"module _ \((%s) : (tie\.[^()]*)\) where\n" % W, b.body) if b.kind == "module" else None
    if not m:
        return [b]
    param, place = m[1], m[2]
    inner = "\n".join(it[2:] if it.startswith("  ") else it for it in b.body[m.end() :].split("\n"))
    _, _, items = split(inner)
    paths = {}
    for it in items:
        args, body = it.clause() or ([], "") if it.kind == "item" else ([], "")
        if "abbrev" in it.mods and not args and re.fullmatch(W + r"(\.%s)*" % W, body.strip()):
            head, dot, rest = body.strip().partition(".")
            paths[it.names[0]] = paths.get(head, head) + dot + rest
    items = [it for it in items if not set(it.names) & set(paths)]
    own = [x for it in items for x in it.names]
    out = []
    for it in items:
        if it.kind != "item":
            return [b]

        def called(text, first):
            got, tokens = [], [x[0] for x in TOKEN.finditer(text)]
            for k, t in enumerate(tokens):
                head, dot, rest = t.partition(".")
                if head in paths and not (got and got[-1].endswith(".")):
                    t = paths[head] + dot + rest
                elif head in own and not (got and got[-1].endswith(".")):
                    t = f"({head} {param}){dot}{rest}"
                got.append(t)
            return "".join(got)

        args, body = it.clause() or ([], "")
        name = it.names[0]
        text = f"{it.comment}\n" if it.comment else ""
        text += f"{it.mods}{name} : ({param} : {place}) → {called(it.type.strip(), 0)}\n"
        text += f"unfolding {it.unfolding}\n" if it.unfolding else ""
        text += f"{name} {' '.join([param, *args])} = {called(body, 0)}"
        out.append(Block(text))
    return out


def respelled(text, root):
    """Writes a name of the repository's own modules as its module spells it now, where that is clear."""
    turns = {}
    for crate, part, at, names in re.findall(r"(?m)^(?:pub )?use Rattle\.(\w+)\.(specs|proofs)\.(\S+?)\.\{([^}]*)\}", text):
        file = f"{root}/crates/{crate}/{part}/{at.replace('.', '/')}.antt"
        if not os.path.isfile(file):
            continue
        there = {it for m in TOKEN.finditer(read(file)) for it in m[0].split(".")}
        for name in (it.split(" as ")[0].strip() for it in names.split(",")):
            if name in there or "◌" in name:
                continue
            like = [it for it in there if re.sub("[-_]", "", it).lower() == re.sub("[-_]", "", name).lower()]
            if len(like) == 1:
                turns[name] = like[0]
    if not turns:
        return text
    out, before = [], ""
    for m in TOKEN.finditer(text):
        head, dot, rest = m[0].partition(".")
        out.append(turns[head] + dot + rest if head in turns and before != "." else m[0])
        before = m[0][-1:]
    return "".join(out)


def dashed_fields(text, words):
    """Writes a field as the source names it, where an old proof has dashes."""
    source, own = words
    if not source:
        return text

    def one(m):
        name = m[1]
        return "." + source[name] if name in source and name not in own else m[0]

    text = re.sub(r"(?<=[^\s(])\.([a-z]\w*(?:-\w+)+)(?![\w-])", one, text)
    args = "|".join(map(re.escape, {"c.args", "s.args", *re.findall(r"let (\S+) = c\.args in", text)}))
    return re.sub(r"(?<![^\s(\[])((?:%s)\.)([a-z]\w*(?:-\w+)+)(?![\w-])" % args, lambda m: m[1] + source.get(m[2], m[2]), text)


def words_of_tree(root):
    source = "".join(read(p) for p in glob.glob(f"{root}/crates/*/src/**/*.rt", recursive=True))
    fields = {it.replace("_", "-"): it for it in re.findall(r"\b([a-z]\w*_\w+)\s*:(?!:)", source)}
    own = set()
    for p in glob.glob(f"{root}/crates/*/*/**/*.antt", recursive=True):
        own |= set(re.findall(r"(?m)(?:^ +(?:pub )?|[{;] *)([a-z]\w*(?:-\w+)+) : ", read(p)))
    return fields, own


WORDS = {}


def turn_file(path, crate, of, root):
    if root not in WORDS:
        WORDS[root] = words_of_tree(root)
    text = respelled(read(path), root)
    shown = os.path.relpath(path, root)
    n = Names(of)
    head, uses, blocks = split(text)
    module = ".".join(os.path.relpath(os.path.dirname(path), f"{root}/crates/{crate}/proofs").split("/"))
    quoted = module
    home = f"Rattle.{crate}.proofs.{quoted}"
    line_of = lambda b: text[: text.find(b.body[:60])].count("\n") + 1

    blocks = past_modules(blocks)
    lemmas, invariants, answers, locals_ = {}, [], [], []
    order = []
    for b in blocks:
        if "tie.close" in b.text:
            continue
        if b.kind == "item" and re.match(r"tie\.(invariant|decreases)-\S+\s*$", b.type):
            invariants.append(b)
            continue
        m = re.match(r"tie\.Need-(\S+)", b.type) if b.kind == "item" else None
        if m:
            answers.append((b, m[1]))
            order.append(("answer", b, m[1]))
            continue
        if b.kind == "item" and "tie." in b.type:
            m = re.match(r"\s*\((%s) : tie\.[^()]*\) →\s+" % W, b.type) or re.match(r"\s*()tie\.\S+(?: invariant-\S+| decreases-\S+)* →\s+", b.type)
            if m:
                lemmas[b.names[0]] = (b, m[1], b.type[m.end() :])
                continue
            left(f"{shown}:{line_of(b)}", f"`{b.names[0]}` takes a place in a way that is not turned")
        elif "tie." in b.text:
            left(f"{shown}:{line_of(b)}", f"`{' '.join(b.names) or b.body[:30]}` names tie")
        locals_.append(b)
        order.append(("local", b, None))

    # invariants
    inv_text = []
    for b in invariants:
        m = re.match(r"tie\.(invariant|decreases)-(\S+)", b.type)
        kind, loop = m[1], n.loops.get(norm(m[2]))
        got = b.clause()
        if not loop or not got or b.clauses != 1:
            left(f"{shown}:{line_of(b)}", f"`{b.names[0]}`: no loop {m[2]} now, or several clauses")
            inv_text.append(b.text)
            continue
        new, live, changed = loop
        args, body = got
        want = len(live) + sum(changed)
        env = {}
        if len(args) != want:
            left(f"{shown}:{line_of(b)}", f"`{b.names[0]}` has {len(args)} parameters, and the loop's variables are {' '.join(live)}, of which {sum(changed)} change")
            # by name as far as it goes
            for a in args:
                base = re.sub("[₀₁]+$", "", a)
                if base in live:
                    is_first = a != base
                    env[a] = ("text", f"l.initial.{base}" if is_first and changed[live.index(base)] else f"l.{base}")
        else:
            for v, ch, a in zip(live, changed, args):
                env[a] = ("text", f"l.initial.{v}" if ch else f"l.{v}")
            for v, a in zip([v for v, ch in zip(live, changed) if ch], args[len(live) :]):
                env[a] = ("text", f"l.{v}")
        t = Turner(n, shown, {})
        name = f"{kind}-{new}"
        comment = b.comment + "\n" if b.comment else ""
        inv_text.append((comment, name, b.unfolding, t.turn(body, env)))

    kept = []
    for what, b, old in order:
        if what == "local":
            kept.append((b.names, b.text, b))
            continue
        found = n.need(old)
        got = b.clause()
        if found is None:
            if got and got[1].strip() in ("search rules", "search needs"):
                continue
            left(f"{shown}:{line_of(b)}", f"no goal `{old}` now: {one_line(b.code)[:150]}")
            continue
        new, place = found
        if got and got[1].strip() in ("search rules", "search needs"):
            continue
        if not got or b.clauses != 1 or place is None:
            left(f"{shown}:{line_of(b)}", f"`{new}` has several clauses")
            kept.append(([new], b.text, None))
            continue
        args, body = got
        t = Turner(n, shown, lemmas)
        t.where = place
        try:
            body = t.turn(body, {args[0]: ("place", place)} if args and args[0] != "_" else {})
        except Cannot as e:
            left(f"{shown}:{line_of(b)}", f"`{new}`: {e}")
            kept.append(([new], f"-- NOT TURNED\n{b.text}", None))
            continue
        for it in t.problems:
            left(f"{shown}:{line_of(b)}", f"`{new}`: {it}")
        asked = of["asked"].get(new) or of["asked"].get(old) or of["asked"].get(old.replace("-", "_")) or next((v for k, v in of["asked"].items() if norm(k) == norm(old)), None)
        if asked and len(asked) > 1 and "record {" not in body:
            rec = as_record(body, asked) or as_fields(body, asked)
            if rec:
                body = rec
            else:
                left(f"{shown}:{line_of(b)}", f"`{new}` has the clauses {' '.join(asked)}, look at its body")
        if t.hoisted:
            lets = "".join(f"    let {a} : {ty} =\n      {indented(bo, '      ')}\n    in\n" for a, ty, bo in t.hoisted)
            body = "\n" + lets + "    " + indented(body.strip(), "    ")
        unfolding = list(dict.fromkeys(b.unfolding.split() + t.unfolding))
        rest = [it for it in args[1:] if it != "κs"]
        if "κs" in args and re.search(r"(?<!\S)κs\b", body):
            left(f"{shown}:{line_of(b)}", f"`{new}` uses κs")
        code = f"pub {new} : goal.{new}\n"
        if unfolding:
            code += f"unfolding {' '.join(unfolding)}\n"
        code += f"{new} {' '.join(['c' if args and args[0] != '_' else '_'] + rest)} ={'' if body.startswith(chr(10)) else (chr(10) + '    ' if chr(10) in body else ' ')}{body.strip() if not body.startswith(chr(10)) else body}"
        comment = b.comment + "\n" if b.comment else ""
        kept.append(([new], comment + code, "answer"))

    # locals that are used
    def closure(text, pool):
        need, words = [], words_of(text)
        todo = [it for it in pool if any(x in words for x in it.names)]
        while todo:
            b = todo.pop()
            if b in need:
                continue
            need.append(b)
            w = words_of(b.text)
            todo += [it for it in pool if it not in need and any(x in w for x in it.names)]
        return need

    inv_code = "\n".join(it if isinstance(it, str) else it[3] for it in inv_text)
    in_inv = closure(inv_code, locals_)
    ans_code = "\n".join(code for _, code, b in kept if not isinstance(b, Block))
    in_ans = [b for b in closure(ans_code, locals_) if b not in in_inv]
    folder = os.path.dirname(path)

    if inv_text:
        parts = []
        for b in locals_:
            if b in in_inv and re.search(r"(?m)^(?:record|data) ", b.text):
                shown_fields = lambda m: m[0] if " pub " in m[0] else f"  pub {m[1]} : "
                code = re.sub(r"(?m)^(record|data) ", r"pub \1 ", b.text)
                parts.append(re.sub(r"(?m)^  (%s) : " % W, shown_fields, code) if "pub record" in code else code)
            elif b in in_inv:
                parts.append(b.text if b.kind == "module" else re.sub(r"(?m)^((?:abbrev |unfoldable )?)(%s :\s)" % re.escape(b.names[0]), r"\1pub \2", b.text, count=1) if b.names and "pub " not in b.text else b.text)
        for it in inv_text:
            if isinstance(it, str):
                parts.append(it)
                continue
            comment, name, unf, body = it
            sep = "\n    " if "\n" in body else " "
            parts.append(f"{comment}abbrev pub {name} : goal.{name}\n" + (f"unfolding {unf}\n" if unf else "") + f"{name} l ={sep}{body}")
        code = "\n\n".join(parts)
        code = dashed_fields(code, WORDS[root])
        write(f"{folder}/Invariants.antt", "\n".join(uses_for(uses, code) + [f"use {home}.Given as goal"]) + "\n\n" + code + "\n")

    if any(not isinstance(b, Block) for _, _, b in kept):
        parts = [code for _, code, b in kept if not isinstance(b, Block) or b in in_ans]
        code = "\n\n".join(parts)
        code = dashed_fields(code, WORDS[root])
        lines = uses_for(uses, code)
        shared = [x for b in in_inv for x in b.names if x in words_of(code)]
        if shared:
            lines.append(f"use {home}.Invariants.{{{', '.join(shared)}}}")
        lines.append(f"use {home}.Goals as goal")
        lead = "\n".join(head) + "\n" if head else ""
        write(f"{folder}/Answers.antt", lead + "\n".join(lines) + "\n\n" + code + "\n")
    os.remove(path)
    return True


# ---------------------------------------------------------------- what a check says


def declared(text):
    """Returns (start, end, name) of each answer of a file."""
    out = []
    for m in re.finditer(r"(?m)^(?:--[^\n]*\n)*pub (\S+) : goal\.\S+\n", text):
        end = re.compile(r"\n\n(?=\S)").search(text, m.end())
        out.append((m.start(), end.end() if end else len(text), m[1]))
    return out


def check(crate, root):
    out = subprocess.run(["rt", "check"], cwd=f"{root}/crates/{crate}", capture_output=True, text=True)
    return out.stdout + out.stderr


def notes_of(said, at, shown=False):
    """Returns, by goal, what the check says of the goals of one function."""
    every = re.findall(r"(?m)^note: `(\S+)` of (\S+) must prove: ([^\n]*)\n((?:  [^\n]*\n)*)", said)
    return {name: goal if shown else text for name, path, goal, text in every if path.endswith(f"proofs/{at}/Answers.antt")}


def arms_of(said, at, goal):
    """Returns, by the join's path, its arms and their fields, as the check's notes list them for a goal."""
    notes = notes_of(said, at)
    out, fields, seen = {}, {}, set()

    def take(name):
        if name in seen or name not in notes:
            return
        seen.add(name)
        for it in re.findall(r"as in `(\S+)` above", notes[name]):
            take(it)
        for path, body in re.findall(r"\| (c\.\S+)\.branch: elim \S+ \[ (.*?) \]", notes[name]):
            out[path] = [it.split()[0] for it in body.split("|")]
        for arm, of in re.findall(r"\|   (\S+) w: ([^\n]*)", notes[name]):
            fields[arm] = re.findall(r"\.(%s)" % W, of)

    take(goal)
    return {path: [(arm, fields.get(arm, [])) for arm in arms] for path, arms in out.items()}


def closing(tokens, i):
    """Returns the place after the bracket that opens at i."""
    depth = 0
    for k in range(i, len(tokens)):
        depth += (tokens[k] in ("(", "[", "{")) - (tokens[k] in (")", "]", "}"))
        if not depth:
            return k + 1
    return len(tokens)


def by_elim(text, arms, renames):
    """Turns each `⊎_elim (λ w. ..) (λ w. ..) c.STEP.branch` into an `elim`. Returns the text and the arms that it names, or None."""
    used = []

    def arm_body(body, fields):
        m = re.match(r"\(λ (%s)\. (.*)\)\Z" % W, body, re.S)
        if not m:
            return None
        w, term = m[1], m[2]
        values = [it for it in fields if it.endswith("-is")]
        tests = [it for it in fields if it.startswith(("if-", "in-", "in_")) and it not in values or it.endswith("-test")]
        calls = [it for it in fields if it not in tests and it not in values]
        numbers = lambda words: sorted(set(re.findall(r"(?<![\w.])%s\.(\d+)%s" % (re.escape(w), words), term)), key=int)
        refs, only, called = numbers(r"\.(?:taken|left|true|false)\b"), numbers(r"(?![.\d])"), numbers(r"\.(?:ensures|result|new)\b")

        def word(step, it):
            it = {"taken": "true", "left": "false"}.get(it, it)
            return renames.get(step, {}).get(it, it)

        def one(m):
            number, rest = m[1], m[2]
            if not tests:
                return m[0]
            if number is None or number == "0":
                step = tests[0]
            else:
                step = tests[max(-len(tests), refs.index(number) - len(refs))]
            return f"w.{step}.{word(step, rest)}"

        term = re.sub(r"(?<![\w.])%s\.(?:(\d+)\.)?(taken|left|true|false)\b" % re.escape(w), one, term)
        for k, number in enumerate(only):
            if k < len(values):
                term = re.sub(r"(?<![\w.])%s\.%s(?![.\d])" % (re.escape(w), number), f"w.{values[k]}", term)
        for k, number in enumerate(called):
            if len(called) == len(calls) or k < len(calls):
                step = calls[k - len(called)] if len(calls) >= len(called) else calls[k]
                term = re.sub(r"(?<![\w.])%s\.%s\.(?=ensures|result|new)" % (re.escape(w), number), f"w.{step}.", term)
        if w != "w":
            term = re.sub(r"(?<![\w.])%s(?![\w.-])" % re.escape(w), "w", term)
        return term

    while True:
        tokens = [m[0] for m in TOKEN.finditer(text)]
        at = next((k for k, t in enumerate(tokens) if t == "⊎_elim"), None)
        if at is None:
            return text, used
        bodies, k = [], at
        start = at

        def arms_at(k):
            """Reads two arms after a ⊎_elim at k; returns their texts and where they end."""
            got, j = [], k + 1
            while len(got) < 2:
                while j < len(tokens) and tokens[j].isspace():
                    j += 1
                if j >= len(tokens) or tokens[j] != "(":
                    return None, j
                e = closing(tokens, j)
                inner = [x for x in range(j + 1, e) if not tokens[x].isspace()]
                if inner and tokens[inner[0]] == "⊎_elim":
                    more, _ = arms_at(inner[0])
                    if more is None:
                        return None, j
                    got += more
                else:
                    got.append("".join(tokens[j:e]))
                j = e
                if len(got) > 2:
                    break
            return got, j

        got, j = arms_at(at)
        while j < len(tokens) and tokens[j].isspace():
            j += 1
        path = tokens[j] if j < len(tokens) else ""
        if got is None or not re.search(r"\.branch(-raw)?$", path):
            return None
        now = arms.get(re.sub(r"\.branch(-raw)?$", "", path))
        if not now or len(now) != len(got):
            return None
        parts = []
        for body, (arm, fields) in zip(got, now):
            term = arm_body(body, fields)
            if term is None:
                return None
            parts.append(f"{arm} w ↦ {term}")
            used.append(arm)
        new = "elim " + re.sub(r"-raw$", "", path) + " [ " + " | ".join(parts) + " ]"
        text = "".join(tokens[:start]) + new + "".join(tokens[j + 1 :])


def of_git(root, crate, at, new, home):
    """Returns the head of an Answers.antt for an answer of a file that is gone: the use lines and the lemmas of the old Proof.antt."""
    path = f"crates/{crate}/proofs/{at}/Proof.antt"
    git = lambda *a: subprocess.run(["git", *a], cwd=root, capture_output=True, text=True).stdout
    gone = git("log", "-1", "--format=%h", "--diff-filter=D", "--", path).strip()
    shown = git("show", f"{gone}^:{path}" if gone else f"HEAD:{path}")
    _, uses, blocks = split(respelled(shown, root))
    kept = [b for b in past_modules(blocks) if "tie." not in b.text and any(x in words_of(new) for x in b.names)]
    code = "\n\n".join(b.text for b in kept)
    return "\n".join([*uses_for(uses, code + "\n" + new), f"use {home}.Goals as goal"]) + "\n" + (f"\n{code}\n" if code else "")


def prune(crate, root, given=None):
    os.makedirs(OPEN, exist_ok=True)
    taken, tried, stuck, said, added, again = {}, set(), [], "", {}, {}
    names = None
    # what an earlier run took out, where it is still not answered
    memory = f"{OPEN}/{crate}.taken.json"
    if os.path.isfile(memory):
        for at, name, old, why in json.loads(read(memory)):
            path = f"{root}/crates/{crate}/proofs/{at}/Answers.antt"
            if not any(d[2] == name for d in (declared(read(path)) if os.path.isfile(path) else [])):
                taken[at, name] = (old, why)
    for _ in range(6):
        said = check(crate, root)
        below = re.search(r"(?m)^rt: the library (\S+) did not build", said)
        if below and below[1] != crate:
            print(f"{crate}: the library {below[1]} is not proved, so nothing was checked")
            return
        found = re.findall(r"(?m)^\./proofs/(\S+)/Answers\.antt:(\d+):(\d+): error: `([^`]+)`: ([^\n]*(?:\n  [^\n]*){0,3})", said)
        moved = False
        for at, line, _col, name, why in sorted(set(found)):
            path = f"{root}/crates/{crate}/proofs/{at}/Answers.antt"
            text = read(path)
            it = next((d for d in declared(text) if d[2] == name), None)
            if it is None:
                stuck.append(f"{path}:{line}: `{name}` (a lemma of the file): {why}")
                continue
            if (at, name) not in taken:
                taken[at, name] = (text[it[0] : it[1]].strip(), why)
            else:
                again[at, name] = (text[it[0] : it[1]].strip(), why)
            text = text[: it[0]] + text[it[1] :]
            for line in added.pop((at, name), []):
                text = text.replace(line, "", 1)
            write(path, text)
            moved = True
            old = taken[at, name][0]
            plain = re.sub(r"\((?:eqb|leb|ltb)-(?:true|false) _ _ ([cw]\.[^\s()]+)\)", r"\1", old)
            if re.match(r"expected type `lib\.Dec\.", why) and plain != old and (at, name, "plain") not in tried:
                tried.add((at, name, "plain"))
                write(path, read(path).rstrip() + "\n\n" + plain + "\n")
        if moved:
            continue
        # what stays open, and has an old answer with a ⊎_elim, is written again with the arms that the check prints
        opened = set()
        for at, goals in re.findall(r"(?m)^fn \S+: no proof: expected answers in \./proofs/(\S+)/Answers\.antt; `search` did not prove ([^\n;]*)", said):
            opened |= {(at, it) for it in re.findall(r"`([^`]+)`", goals)}
        for key in sorted(opened & set(taken) - tried):
            tried.add(key)
            at, name = key
            old = taken[key][0]
            if "⊎_elim" not in old:
                continue
            if names is None:
                names = names_of(crate, root, given) or {}
            of = names.get(f"Rattle-{crate}-proofs.{at.replace('/', '.')}.Lts") or {"places": []}
            renames = {p[2][1]: dict(p[4]) for p in of["places"] if p[4]}
            got = by_elim(old, arms_of(said, at, name), renames)
            if got is None:
                continue
            new, arms = got
            # a test of a join is a proposition now, where it was an equation of `Bool`
            is_raw = lambda m: m[2].endswith("-raw")
            new = re.sub(r"\((eqb|leb|ltb)-(?:true|false) _ _ (w\.[^\s()]+)\)", lambda m: m[0] if is_raw(m) else m[2], new)
            path = f"{root}/crates/{crate}/proofs/{at}/Answers.antt"
            home = f"Rattle.{crate}.proofs.{at.replace('/', '.')}"
            text = read(path) if os.path.isfile(path) else of_git(root, crate, at, new, home)
            line = f"use {home}.Goals.{{{', '.join(dict.fromkeys(arms))}}}\n"
            if arms and line not in text:
                added[key] = [line]
                text = text.replace(f"use {home}.Goals as goal\n", f"use {home}.Goals as goal\n{line}", 1)
            write(path, text.rstrip() + "\n\n" + new + "\n")
            moved = True
        if not moved:
            break
    write(memory, json.dumps([[at, name, old, why] for (at, name), (old, why) in taken.items()]))
    for path in {f"{root}/crates/{crate}/proofs/{at}/Answers.antt" for at, _ in taken}:
        if os.path.isfile(path) and not declared(read(path)):
            os.remove(path)
    write(f"{OPEN}/{crate}.check", said)
    state = "proved" if re.findall(r"(?m)^logic=(\S+)", said)[-1:] == ["proved"] else "not proved"
    functions = re.findall(r"(?m)^fn (%s::\S+): (proved|not proved|no proof[^\n]*|could not tell)" % crate, said)
    lines = [f"{crate}: {state}; {sum(b == 'proved' for _, b in functions)} of {len(functions)} functions proved"]
    lines += [f"fn {a}: {b[:300]}" for a, b in functions if b != "proved"]
    for at, goals in re.findall(r"(?m)^fn \S+: no proof: expected answers in \./proofs/(\S+)/Answers\.antt; `search` did not prove ([^\n;]*)", said):
        for name in re.findall(r"`([^`]+)`", goals):
            lines += ["", f"== crates/{crate}/proofs/{at}/Answers.antt: {name}"]
            notes = notes_of(said, at, True)
            if name in notes:
                lines.append(f"must prove: {notes[name]}")
            for key in dict.fromkeys([(at, name), (at, re.sub("-clause-.*", "", name))]):
                if key in taken:
                    lines += ["old answer:", taken[key][0], f"which failed: {taken[key][1]}"]
                if key in again:
                    lines += ["and then:", again[key][0], f"which failed: {again[key][1]}"]
    lines += ["", *dict.fromkeys(stuck)]
    others = re.findall(r"(?m)^\S+:\d+:\d+: error: [^\n]*", said)
    lines += ["", "errors of the last check:", *others] if others else []
    write(f"{OPEN}/{crate}.txt", "\n".join(lines) + "\n")
    print(lines[0] + f"; see {OPEN}/{crate}.txt")
    for (at, name), (_, why) in taken.items():
        print(f"  taken out: {at}: {name}: {one_line(why)[:160]}")


def names_of(crate, root, given):
    """Returns names.json of the crate, made by `rattle` from the sources."""
    if given:
        for p in (f"{given}/crates/{crate}/names.json", f"{given}/{crate}/names.json", f"{given}/names.json"):
            if os.path.isfile(p):
                return json.loads(read(p))
    to = f"{tempfile.gettempdir()}/turn_proofs-{os.getuid()}/{crate}"
    os.makedirs(to, exist_ok=True)
    if os.path.isfile(f"{to}/names.json"):
        os.remove(f"{to}/names.json")
    # `rt names` goes by the sources alone, so nothing below needs a proof.
    out = subprocess.run(["rt", "names", to], cwd=f"{root}/crates/{crate}", capture_output=True, text=True)
    for p in (f"{to}/names.json", *glob.glob(f"{to}/**/names.json", recursive=True)):
        if os.path.isfile(p):
            return json.loads(read(p))
    print(f"left: {crate}: no names were listed: {(out.stdout + out.stderr)[-1500:]}")
    return None


def with_auto(crate, root):
    for f in ("lib.rt", "main.rt"):
        p = f"{root}/crates/{crate}/src/{f}"
        if os.path.isfile(p):
            text = read(p)
            if "#![tactic(" in text:
                return
            lines = text.split("\n")
            k = 0
            while k < len(lines) and lines[k].startswith("//"):
                k += 1
            lines[k:k] = ["#![tactic(auto)]"]
            write(p, "\n".join(lines))


def turn(crate, root, given):
    files = [p for p in sorted(glob.glob(f"{root}/crates/{crate}/proofs/**/Proof.antt", recursive=True)) if "tie.close" in read(p)]
    with_auto(crate, root)
    memory = f"{OPEN}/{crate}.taken.json"
    if files and os.path.isfile(memory):
        os.remove(memory)
    if not files:
        print(f"{crate}: nothing to turn")
        return
    names = names_of(crate, root, given)
    if names is None:
        return
    done = 0
    for p in files:
        at = os.path.relpath(os.path.dirname(p), f"{root}/crates/{crate}/proofs").replace("/", ".")
        of = names.get(f"Rattle-{crate}-proofs.{at}.Lts")
        if of is None:
            left(os.path.relpath(p, root), "names.json has no such function")
            continue
        try:
            done += turn_file(p, crate, of, root)
        except Cannot as e:
            left(os.path.relpath(p, root), str(e))
    print(f"{crate}: {done} of {len(files)} files turned")


def main():
    args, given = sys.argv[1:], None
    if "--names" in args:
        k = args.index("--names")
        given = args[k + 1]
        del args[k : k + 2]
    root = os.getcwd()
    if not os.path.isfile("crates.txt") or not args:
        sys.exit(__doc__)
    if args[0] == "--prune":
        for it in args[1:]:
            prune(it, root, given)
        return
    for it in args:
        turn(it, root, given)


if __name__ == "__main__":
    main()
