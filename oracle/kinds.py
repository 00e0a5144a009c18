"""The kinds of difference between 01 and the Rust that are known and explained.

Each kind is a row of docs/DIFFERENCES.md and a test that the row's reason holds in the
case at hand: a difference that no test explains is a new one. A test gets the
operation, the case, what the Rust answered and what 01 answers.
"""
import lines
import model
from model import flip

ROOM = {"get_shared_prefix": ["room"], "enumerate_branch": ["members", "ends"],
        "collapse": ["nodes", "links", "rules", "steps"], "expand": ["table_rules", "table_steps"],
        "collapse_all": ["nodes", "links", "rules", "steps"], "transform_walk": ["room"],
        "spell_walk": ["room"], "read_gfa": ["nodes", "letters", "links"],
        "print_active_subgraph": ["room"], "print_transformations": ["room"],
        "parse_and_transform_paths": ["room"]}


# What the Rust's own answer says: its rules, and the room that it would take.

def rust_rules(rust):
    """Keys and steps of the event list or table at the end of the Rust's answer."""
    rules = []
    for word in rust[3:].split(" | ")[-1].split():
        key, _, walk = word.partition("=")
        rules.append((key, [step for step in walk.split(",") if step]))
    return rules


def rule_room(rules, before=0, steps=0):
    """Rules and steps after the first ones, which took so many steps (some maybe unused)."""
    return [4 * len(rules), 2 * (steps + sum(len(walk) for _, walk in rules[before:]))]


def store_room(nodes, links):
    return [4 * len(nodes.split()), 3 * len(links.split())]


def rust_room(op, case, rust):
    """How long each array of ROOM would have to be, by the Rust's answer."""
    body = rust[3:]
    if op in ("collapse", "collapse_all"):
        rules = rule_room(rust_rules(rust), case["rule_count"], case["step_count"])
        return store_room(*body.split(" | ")[1:3]) + rules
    if op == "read_gfa":
        nodes, links = body.split(" | ")
        letters = sum(len(node.split(":")[1]) for node in nodes.split())
        return [4 * len(nodes.split()), letters, 3 * len(links.split())]
    if op == "expand":
        return rule_room(rust_rules(rust))
    if op == "enumerate_branch":
        return [len(body.replace(",", " ").split()), len(body.split())]
    if op == "transform_walk":
        return [len(body.split())]
    return [len(lines.unquoted(body))]


def no_room(op, case, rust, mine):
    """7: the Rust's answer does not fit, and with room 01 gives the same answer.

    Where the two differ in another known way too, it is 01's own text that must not fit.
    """
    if mine["number"] != 7 or not rust.startswith("ok"):
        return False
    wide = model.answer(op, {**case, **{name: case[name] + [0] * 20000 for name in ROOM[op]}})
    if rust == lines.view(op, wide):
        return any(size > len(case[name]) for name, size in zip(ROOM[op], rust_room(op, case, rust)))
    fits = "room" in case and wide["number"] == 0 and wide["length"] <= len(case["room"])
    return known(op, case, rust, wide) is not None and not fits


def without_prefix(case):
    return {name.removeprefix("old_"): value for name, value in case.items() if not name.startswith("new_")}


def members_of(op, case):
    return [case["v"]] if op == "enumerate_branch" else case["members"]


def marked_member(op, case, rust, mine):
    marked = {r[0] for r in lines.records(case["nodes"], case["node_count"], 4) if r[3]}
    return mine["number"] == 8 and any(m >> 1 in marked for m in members_of(op, case))


def node_twice(op, case, rust, mine):
    ids = [m >> 1 for m in members_of(op, case)]
    return mine["number"] == 8 and len(set(ids)) < len(ids)


def one_member(op, case, rust, mine):
    return mine["number"] == 8 and len(case["members"]) == 1


def unborn_member(op, case, rust, mine):
    """8: a member that stands only once an earlier member's split has made it."""
    ids = case["nodes"][0:4 * case["node_count"]:4]
    return mine["number"] == 8 and any(m >> 1 not in ids for m in case["members"])


def letters_of(case, h):
    """An oriented node's letters in upper case, from the arrays themselves."""
    starts = [i for i in range(0, 4 * case["node_count"], 4) if case["nodes"][i] == h >> 1]
    start, length = case["nodes"][starts[0] + 1:starts[0] + 3]
    text = bytes(case["letters"][start:start + length]).upper().decode()
    return text[::-1].translate(str.maketrans("ACGT", "TGCA")) if h & 1 else text


def above_prefix(op, case, rust, mine):
    """9: the length is 0, or the members do not agree so far, or one has N there."""
    heads = {letters_of(case, m)[:case["p"]] for m in case["members"]}
    head = heads.pop()
    return mine["number"] == 9 and (heads or "N" in head or not 0 < case["p"] == len(head))


def left_of(case, h):
    """Live left neighbours, from the arrays themselves."""
    marked = {r[0] for r in lines.records(case["nodes"], case["node_count"], 4) if r[3]}
    found = set()
    for u, v, mark in lines.records(case["links"], case["link_count"], 3):
        if not mark and not {u >> 1, v >> 1} & marked:
            found |= {u} if v == h else set()
            found |= {flip(v)} if flip(u) == h else set()
    return found


def left_sets_differ(op, case, rust, mine):
    return mine["number"] == 10 and len({frozenset(left_of(case, m)) for m in case["members"]}) > 1


def id_above(op, case, rust, mine):
    """11: the Rust's answer has an id that 01 does not allow; a text may not show it."""
    if op == "run":
        names = [int(f[1]) for f in text_fields(case) if f[0] == b"S"]
        return mine["number"] == 11 and max(names) > model.MAX_ID - 100
    return mine["number"] == 11 and f" {model.MAX_ID + 1}:" in rust


def key_twice(op, case, rust, mine):
    keys = [key for key, _ in rust_rules(rust)]
    return mine["number"] == 5 and len(set(keys)) < len(keys)


def out_of_order(op, case, rust, mine):
    """12: in the Rust's list some step's own rule does not come later."""
    at, late = {}, False
    for i, (key, _) in enumerate(rust_rules(rust)):
        at.setdefault(key, i)
    for i, (_, walk) in enumerate(rust_rules(rust)):
        own = [f"{int(step.split(':')[0]) >> 1}:{step.split(':')[1]}" for step in walk]
        late = late or any(at.get(key, i + 1) <= i for key in own)
    return mine["number"] == 12 and late


def protected_twice(op, case, rust, mine):
    ids = case["protected"]
    return mine["number"] == 5 and len(set(ids)) < len(ids)


# The checker

def table_of(case):
    old = model.load_store(without_prefix(case))
    return old, model.load_store(case, "new_"), model.load_rules(case)


def said_yes(test):
    return lambda op, case, rust, mine: rust == "ok yes" and test(case, mine)


def lone_absent(case, mine):
    """21: a rule of one step, its node absent, its key no old node of that length."""
    old, new, table = table_of(case)
    at = mine["place1"]
    if mine["number"] != 21 or len(table.walk(at)) != 1:
        return False
    (h, _), (key, length) = table.walk(at)[0], table.keys()[at]
    is_old = old.node(key * 2) is not None and old.length(key * 2) == length
    return new.node(h) is None and not is_old


def unseen_link(case, mine):
    """27: the link lies on no left end of an old node with a rule."""
    old, _, table = table_of(case)
    if mine["number"] != 27:
        return False
    u, v, _ = sorted(old.links)[mine["place1"]]
    seen = [h for h in (v, flip(u)) if not h & 1 and table.rule(h, old.length(h)) is not None]
    return not seen


# Texts

def itself_reversed(op, case, rust, mine):
    """The table has a line for a node whose walk is itself reversed; the Rust has none."""
    if op == "run":
        return False  # no collapse makes such a rule
    text = bytes(mine["room"][:mine["length"]])
    kept = [x for x in lines.split_lines(text) if x.split(b"\t")[0] != x.split(b"\t")[1][1:] or x[:1] == b"o"]
    return rust == "ok " + lines.quoted(lines.sorted_lines(b"".join(kept), 1))


def empty_rule(op, case, rust, mine):
    """An old node's rule has no steps: the Rust indexes its first one."""
    old, table = model.load_store(case), model.load_rules(case)
    walks = [model.image(table, old, name * 2) for name in model.ids_of(old)]
    return rust == "panic" and [] in walks


def text_fields(case):
    return [line.split(b"\t") for line in bytes(case["text"]).split(b"\n")]


def w_lines(case):
    return [f for f in text_fields(case) if f[0][:1] == b"W" and len(f) > 6]


def joined_name(f):
    return b"%s#%s#%s:%s-%s$gfaffix" % tuple(f[1:6])


def met_names(case):
    """Names under which two W lines, or a W and a P line, come in the Rust's own map."""
    walks = {(joined_name(f), *f[1:6]) for f in w_lines(case)}
    names = [walk[0] for walk in walks]
    paths = {f[1] for f in text_fields(case) if f[0] == b"P" and len(f) > 1}
    return {name for name in names if names.count(name) > 1 or name in paths}


def names_meet(op, case, rust, mine):
    return bool(met_names(case))


def is_utf8(data):
    try:
        return data.decode("utf-8") is not None
    except UnicodeDecodeError:
        return False


def foreign_name(f):
    """A P or W line whose name is not UTF-8."""
    name = f[1:2] if f[0] == b"P" else f[1:6] if f[0][:1] == b"W" else []
    return not is_utf8(b"\t".join(name))


def name_bytes(op, case, rust, mine):
    return rust == "panic" and mine["number"] == 0 and any(map(foreign_name, text_fields(case)))


def header_bytes(op, case, rust, mine):
    header = bytes(model.parse_header({**case, "fallback": b""})["text"])
    return rust == "panic" and mine["number"] == 0 and not is_utf8(header)


def longer_w(f):
    """A line that begins with W and whose first field is longer."""
    return f[0][:1] == b"W" and f[0] != b"W"


def first_byte_w(op, case, rust, mine):
    return any(map(longer_w, text_fields(case)))


def only_w_fault(fault):
    """01 refuses, the Rust answers, and a W line has that fault."""
    def test(op, case, rust, mine):
        walks = [f for f in w_lines(case) if f[0] == b"W"]
        return rust != "panic" and mine["number"] in (1, 2) and any(fault(f) for f in walks)
    return test


def unnamed(f):
    return b"" in f[1:6]


def signs_in_name(f):
    return any(sign in f[6] for sign in (b"+,", b"-,"))


def late_return(f):
    """Byte 13 behind the walk only: the Rust never looks at what follows."""
    return any(b"\r" in tag for tag in f[7:]) and not any(b"\r" in part for part in f[:7])


def text_refused(op, case, rust, mine):
    """The path writer looks at P and W lines; the Rust has to read the whole text first."""
    room = {name: [0] * 20000 for name in ("nodes", "letters", "links")}
    reading = model.answer("read_gfa", {"text": case["text"], **room})
    return rust == "panic" and mine["number"] == 0 and reading["number"] != 0


def without_lines(case, culprit):
    kept = [f for f in text_fields(case) if not culprit(f)]
    return {**case, "text": list(b"\n".join(b"\t".join(f) for f in kept))}


def remedied(row, op, case):
    """The case without what the row blames; the difference must then be gone."""
    met = met_names(case) if row == "W5" else set()
    of_walk = lambda fault: lambda f: f[0] == b"W" and len(f) > 6 and fault(f)
    culprits = {"W1": longer_w, "W2": of_walk(unnamed), "W3": of_walk(signs_in_name),
                "W4": of_walk(late_return), "B1": foreign_name,
                "W5": lambda f: f[1:2] and f[1] in met or len(f) > 6 and joined_name(f) in met,
                "B2": lambda f: f[0][:1] == b"H" and not is_utf8(b"\t".join(f)),
                "G1": lambda f: f[0] in (b"S", b"L")}
    if row not in culprits:
        return None
    fixed = without_lines(case, culprits[row])
    if row == "G1":  # the Rust reads the segments first, so they have to stand
        names = case["nodes"][0:4 * case["node_count"]:4]
        fixed["text"] = list(b"".join(b"S\t%d\tA\n" % name for name in names)) + fixed["text"]
    return fixed


WALK_OPS = ["read_gfa", "parse_and_transform_paths", "run"]

# Row, its words, operations, test. The first that fits names the kind.
ROWS = [
    ("R1", "a protected id twice: 5; the Rust's set takes it once",
     ["check_transform", "collapse_all", "run"], protected_twice),
    ("R2", "a marked member or v: 8; the Rust does not look",
     ["get_shared_prefix", "enumerate_branch", "collapse"], marked_member),
    ("R3", "one node twice: 8; the Rust goes on", ["get_shared_prefix", "collapse"], node_twice),
    ("R4", "one member: 8; the Rust goes on", ["collapse"], one_member),
    ("R10", "a member that only the collapse itself makes: 8; the Rust goes on",
     ["collapse"], unborn_member),
    ("R5", "length above the shared prefix: 9; the Rust goes on", ["collapse"], above_prefix),
    ("R6", "left sets differ: 10; the Rust goes on", ["collapse"], left_sets_differ),
    ("R7", "an id above the range: 11; the Rust goes on",
     ["collapse", "collapse_all", "run"], id_above),
    ("R8", "the event list has a key twice: 5; the Rust's map takes it",
     ["collapse", "collapse_all"], key_twice),
    ("R9", "the event list is out of order: 12; the Rust takes it",
     ["collapse", "collapse_all"], out_of_order),
    ("C1", "a lone step on an absent node: 21; the Rust says yes", ["check_transform"],
     said_yes(lone_absent)),
    ("C2", "a recorded length not the node's own: 22; the Rust says yes", ["check_transform"],
     said_yes(lambda case, mine: mine["number"] == 22)),
    ("C3", "an old node without rule not kept: 26; the Rust says yes", ["check_transform"],
     said_yes(lambda case, mine: mine["number"] == 26)),
    ("C4", "a lost link on no left end of a node with a rule: 27; the Rust says yes", ["check_transform"],
     said_yes(unseen_link)),
    ("T1", "a node whose walk is itself reversed: printed; the Rust leaves it out",
     ["print_transformations"], itself_reversed),
    ("T2", "an old node's rule without steps: printed empty; the Rust panics",
     ["print_transformations"], empty_rule),
    ("W1", "a longer first field that begins with W: passed over; the Rust takes a W line",
     WALK_OPS, first_byte_w),
    ("W2", "an empty name field in a W line: 1; the Rust takes it", WALK_OPS, only_w_fault(unnamed)),
    ("W3", "a sign and comma inside a walk's name: 2; the Rust takes two steps", WALK_OPS,
     only_w_fault(signs_in_name)),
    ("W4", "byte 13 behind the walk: 1; the Rust does not look there", WALK_OPS, only_w_fault(late_return)),
    ("W5", "two names that meet in the Rust's map: each kept; the Rust mixes them up",
     ["parse_and_transform_paths", "run"], names_meet),
    ("B1", "a name that is not UTF-8: passed through; the Rust stops",
     ["parse_and_transform_paths", "run"], name_bytes),
    ("B2", "a header that is not UTF-8: passed through; the Rust stops",
     ["parse_header", "run"], header_bytes),
    ("G1", "an S or L line that reading refuses: not looked at; the Rust stops before",
     ["parse_and_transform_paths"], text_refused),
    ("M1", "the lent room: 7; the Rust has no bounds", list(ROOM), no_room),
]
WORDS = {row: words for row, words, _, _ in ROWS}

# Rows whose tests read the arrays or the Rust's answer alone, with their numbers: they
# also tell where the model would have overlooked a refusal.
DUE = {"R1": 5, "R2": 8, "R3": 8, "R4": 8, "R10": 8, "R5": 9, "R6": 10, "R8": 5, "R9": 12}


def known(op, case, rust, mine):
    for row, _, ops, test in ROWS:
        if op in ops and test(op, case, rust, mine):
            return row
    return None


def overlooked(op, case, rust, mine):
    """The row of a refusal that is due by the row's own test, though 01's model answered."""
    for row, number in DUE.items():
        _, _, ops, test = next(entry for entry in ROWS if entry[0] == row)
        if op in ops and test(op, case, rust, {**mine, "number": number}):
            return row
    return None


def difference(op, case, rust, mine):
    """None where both hold the same, a row's name, or words for a new kind."""
    refusal = mine["number"]
    if rust == "undefined":
        return None if refusal else f"NEW {op}: undefined for the Rust, an answer by 01"
    if refusal == 0 and rust.startswith("ok") and overlooked(op, case, rust, mine):
        return f"NEW {op}: {overlooked(op, case, rust, mine)} is due, 01's model answers"
    if rust == lines.view(op, mine) or (rust == "panic" and refusal):
        return None
    row = known(op, case, rust, mine)
    if row:
        return row
    asked = rust.split(" ")[0]
    return f"NEW {op}: the Rust gives {asked}, 01 gives {refusal or 'another answer'}"
