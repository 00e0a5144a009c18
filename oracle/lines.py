"""The line format, in one place: cases, answers, and the plain view of an answer.

A case is a dict of named arrays (lists) and numbers, in the order that SHAPES gives.
"""
import re

STORE = "nodes* letters* links* node_count letter_count link_count"
RULES = "rules* steps* rule_count step_count"


def named(prefix, names):
    return " ".join(prefix + name for name in names.split())


# Operation: what a case line holds, and which numbers come first in its answer.
# A star marks an array. After the numbers an answer has every array of the case.
SHAPES = {
    "live_letters": (STORE, "number total"),
    "get_shared_prefix": (f"{STORE} members* room*", "number length"),
    "enumerate_branch": (f"{STORE} v members* ends*", "number groups"),
    "collapse": (f"{STORE} {RULES} members* p",
                 "number shared node_count letter_count link_count rule_count step_count"),
    "collapse_all": (f"{STORE} {RULES} protected*",
                     "number collapses node_count letter_count link_count rule_count step_count"),
    "expand": (f"{RULES} {named('table_', 'rules* steps*')}", "number rule_count step_count"),
    "transform_walk": (f"{STORE} {RULES} walk* room*", "number length"),
    "spell_walk": (f"{STORE} walk* room*", "number place length"),
    "check_transform": (f"{named('old_', STORE)} {named('new_', STORE)} {RULES} protected*",
                        "number place1 place2"),
    "read_gfa": ("text* nodes* letters* links*", "number node_count letter_count link_count"),
    "print_active_subgraph": (f"{STORE} room*", "number length"),
    "print_transformations": (f"{STORE} {RULES} room*", "number length"),
    "parse_and_transform_paths": (f"text* {STORE} {RULES} room*", "number length"),
    # Never refuses: its answer is the bytes alone, as one array.
    "parse_header": ("text* fallback*", ""),
    # A whole run; no operation of replay, held between the Rust and the model.
    "run": ("text* protected*", ""),
}


def fields(op):
    return SHAPES[op][0].split()


def arrays(op):
    return [name[:-1] for name in fields(op) if name.endswith("*")]


def array_words(values):
    return [str(len(values))] + [str(value) for value in values]


def encode_case(op, case):
    words = [op]
    for name in fields(op):
        value = case[name.rstrip("*")]
        words += array_words(value) if name.endswith("*") else [str(value)]
    return " ".join(words)


def written_out(line):
    """The line with each V*K as K times V, as replay reads and writes runs."""
    words = []
    for word in line.split(" "):
        value, star, times = word.partition("*")
        words += [value] * int(times) if star and value.isdigit() and times.isdigit() else [word]
    return " ".join(words)


def take_array(numbers, at):
    end = at + 1 + numbers[at]
    if end > len(numbers):
        raise ValueError("an array runs past its line")
    return numbers[at + 1:end], end


def decode_case(line):
    words = written_out(line).split(" ")
    op, numbers, at, case = words[0], [int(word) for word in words[1:]], 0, {}
    for name in fields(op):
        if name.endswith("*"):
            case[name[:-1]], at = take_array(numbers, at)
        else:
            case[name], at = numbers[at], at + 1
    if at != len(numbers):
        raise ValueError("words left over")
    return op, case


def encode_answer(op, answer):
    """An answer is a dict: its numbers, and the arrays of the case as they are after."""
    if op == "parse_header":
        return " ".join(array_words(answer["text"]))
    words = [str(answer[name]) for name in SHAPES[op][1].split()]
    for name in arrays(op):
        words += array_words(answer[name])
    return " ".join(words)


def decode_answer(op, line):
    numbers, at, answer = [int(word) for word in written_out(line).split(" ")], 0, {}
    if op == "parse_header":
        answer["text"], at = take_array(numbers, 0)
    else:
        for name in SHAPES[op][1].split():
            answer[name], at = numbers[at], at + 1
        for name in arrays(op):
            answer[name], at = take_array(numbers, at)
    if at != len(numbers):
        raise ValueError("words left over")
    return answer


# The view: what the Rust shows too. Graphs without their slots, lines without order.

def records(array, count, stride):
    return [array[i * stride:(i + 1) * stride] for i in range(count)]


def view_graph(a):
    nodes = sorted(records(a["nodes"], a["node_count"], 4))
    links = sorted(records(a["links"], a["link_count"], 3))
    letters = bytes(a["letters"])
    node_words = [f"{i}:{letters[s:s + n].decode()}:{m}" for i, s, n, m in nodes]
    return " ".join(node_words) + " | " + " ".join(f"{u}>{v}:{m}" for u, v, m in links)


def view_rules(rules, steps, count):
    words = []
    for key, length, first, number in records(rules, count, 4):
        walk = steps[first * 2:(first + number) * 2]
        shown = [f"{walk[i]}:{walk[i + 1]}" for i in range(0, len(walk), 2)]
        words.append(f"{key}:{length}=" + ",".join(shown))
    return " ".join(words)


def view_state(a):
    return view_graph(a) + " | " + view_rules(a["rules"], a["steps"], a["rule_count"])


def quoted(data):
    plain = [chr(b) if 32 < b < 127 and b not in b'"\\' else f"\\x{b:02x}" for b in data]
    return '"' + "".join(plain) + '"'


def unquoted(word):
    return re.sub(r"\\x(..)", lambda m: chr(int(m.group(1), 16)), word[1:-1]).encode("latin-1")


def sorted_lines(data, headings=0):
    lines = split_lines(data)
    return b"".join(lines[:headings] + sorted(lines[headings:]))


def split_lines(data):
    parts = bytes(data).split(b"\n")
    return [part + b"\n" for part in parts[:-1]] + ([parts[-1]] if parts[-1] else [])


def view_groups(a):
    starts = [0] + a["ends"][:a["groups"]]
    groups = [a["members"][s:e] for s, e in zip(starts, starts[1:])]
    return " ".join(",".join(map(str, group)) for group in sorted(groups))


VIEWS = {
    "live_letters": lambda a: str(a["total"]),
    "get_shared_prefix": lambda a: quoted(a["room"][:a["length"]]),
    "enumerate_branch": view_groups,
    "collapse": lambda a: f"{a['shared']} | " + view_state(a),
    "collapse_all": lambda a: f"{a['collapses']} | " + view_state(a),
    "expand": lambda a: view_rules(a["table_rules"], a["table_steps"], a["rule_count"]),
    "transform_walk": lambda a: " ".join(map(str, a["room"][:a["length"]])),
    "spell_walk": lambda a: quoted(a["room"][:a["length"]]),
    "check_transform": lambda a: "yes",
    "read_gfa": view_graph,
    "print_active_subgraph": lambda a: quoted(sorted_lines(a["room"][:a["length"]])),
    "print_transformations": lambda a: quoted(sorted_lines(a["room"][:a["length"]], 1)),
    "parse_and_transform_paths": lambda a: quoted(a["room"][:a["length"]]),
    "parse_header": lambda a: quoted(a["text"]),
    "run": lambda a: " ".join([quoted(a["header"]), quoted(sorted_lines(a["graph"])),
                               quoted(a["paths"]), quoted(sorted_lines(a["table"], 1))]),
}


def view(op, answer):
    """`no N` for a refusal, else `ok` and what the Rust shows of the answer."""
    number = answer.get("number", 0)
    return f"no {number}" if number else f"ok {VIEWS[op](answer)}"


# A case in words, for reports.

def handle_text(h):
    return f"{h >> 1}{'-' if h & 1 else '+'}"


def show_graph(case, prefix=""):
    get = lambda name: case[prefix + name]
    letters = get("letters")[:get("letter_count")]
    text = []
    for i, s, n, m in records(get("nodes"), min(get("node_count"), len(get("nodes")) // 4), 4):
        text.append(f"S {i} {quoted(letters[s:s + min(n, 80)])[1:-1]}" + (f" mark {m}" if m else ""))
    for u, v, m in records(get("links"), min(get("link_count"), len(get("links")) // 3), 3):
        text.append(f"L {handle_text(u)} {handle_text(v)}" + (f" mark {m}" if m else ""))
    return "; ".join(text)


def show_rules(case):
    text = []
    for key, length, first, number in records(case["rules"], min(case["rule_count"], 99), 4):
        walk = case["steps"][first * 2:(first + min(number, 99)) * 2]
        steps = [f"{handle_text(h)}:{n}" for h, n in zip(walk[::2], walk[1::2])]
        text.append(f"({key},{length}) = {' '.join(steps)}")
    return "; ".join(text)


def show_case(op, case):
    parts, names = [], fields(op)
    for prefix in ("", "old_", "new_"):
        if f"{prefix}node_count" in names:
            parts.append(f"{prefix}graph [{show_graph(case, prefix)}]")
    if "rule_count" in names:
        parts.append(f"rules [{show_rules(case)}]")
    for name in ("members*", "walk*"):
        if name in names and op != "enumerate_branch":
            parts.append(f"{name[:-1]} [{' '.join(map(handle_text, case[name[:-1]]))}]")
    if "v" in names:
        parts.append(f"v {handle_text(case['v'])}")
    for name in ("p", "protected*", "text*"):
        if name in names:
            value = case[name.rstrip("*")]
            parts.append(f"{name.rstrip('*')} {quoted(value) if name == 'text*' else value}")
    return ", ".join(parts)
