"""01's rules in plain Python: every operation, its refusals in order, every lent array.

Written from the paper and its readings alone, not from the Rust and not from our
program, so that a difference among the three shows which one stands apart.
"""
import re

MAX_ID = 4294967295
NODES, LETTERS, LINKS, RULES, STEPS, PROTECTED = 65536, 16777216, 131072, 65536, 262144, 4096
TEN = b"ACGTNacgtn"
COMPLEMENT = bytes.maketrans(b"ACGTNacgtn", b"TGCANtgcan")


class No(Exception):
    """A refusal: its number and its places."""

    def __init__(self, number, *places):
        super().__init__(number, *places)
        self.number, self.places = number, places


def refuse_if(fault, number, *places):
    if fault:
        raise No(number, *places)


# Oriented nodes, links, walks

def flip(h):
    return h ^ 1


def turned(walk):
    """A walk of (oriented node, length), read the other way round."""
    return [(flip(h), n) for h, n in reversed(walk)]


def written(u, v):
    """A link's written form: both forward, else the smaller first id."""
    other = (flip(v), flip(u))
    if u & 1 == v & 1:
        return other if u & 1 else (u, v)
    return other if v >> 1 < u >> 1 else (u, v)


class Store:
    """Nodes [id, start, length, mark] and links [from, to, mark], each in its slot."""

    def __init__(self, nodes, letters, links):
        self.nodes, self.letters, self.links = nodes, bytes(letters), links
        self.index()

    def index(self):
        self.by_id = {node[0]: node for node in self.nodes}
        self.by_ends = {(link[0], link[1]): link for link in self.links}

    def copy(self):
        return Store([n[:] for n in self.nodes], self.letters, [k[:] for k in self.links])

    def node(self, h):
        return self.by_id.get(h >> 1)

    def live(self, h):
        node = self.node(h)
        return node is not None and node[3] == 0

    def length(self, h):
        return self.node(h)[2]

    def spell(self, h):
        _, start, length, _ = self.node(h)
        letters = self.letters[start:start + length]
        return letters[::-1].translate(COMPLEMENT) if h & 1 else letters

    def link(self, u, v):
        return self.by_ends.get(written(u, v))

    def live_link(self, u, v):
        link = self.link(u, v)
        return link is not None and link[2] == 0 and self.live(u) and self.live(v)

    def right(self, v):
        """Live right neighbours: by rising id, forward before reverse."""
        ends = {b for a, b, _ in self.links if a == v}
        ends |= {flip(a) for a, b, _ in self.links if flip(b) == v}
        return sorted(u for u in ends if self.live_link(v, u))

    def left(self, v):
        return {flip(u) for u in self.right(flip(v))}

    def make_link(self, u, v):
        """A link already stored is not made again, and its mark stays."""
        if self.link(u, v) is None:
            self.links.append([*written(u, v), 0])
            self.by_ends[written(u, v)] = self.links[-1]

    def split(self, v, k):
        """Forward v keeps k letters, a fresh node gets the rest and v's right side."""
        fresh = (max(self.by_id) + 1) * 2
        node = self.node(v)
        for link in self.links:
            ends = [fresh if link[0] == v else link[0], fresh + 1 if link[1] == flip(v) else link[1]]
            link[0:2] = written(*ends)
        self.nodes.append([fresh >> 1, node[1] + k, node[2] - k, 0])
        node[2] = k
        self.index()
        self.make_link(v, fresh)
        return fresh


class Rules:
    """Rules [id, length, first step, steps] and steps [oriented node, length]."""

    def __init__(self, rules, steps):
        self.rules, self.steps = rules, steps
        self.by_key = {(rule[0], rule[1]): i for i, rule in enumerate(rules)}

    def copy(self):
        return Rules([r[:] for r in self.rules], [s[:] for s in self.steps])

    def walk(self, i):
        first, number = self.rules[i][2:]
        return [tuple(step) for step in self.steps[first:first + number]]

    def rule(self, h, length):
        return self.by_key.get((h >> 1, length))

    def add(self, key, walk):
        self.by_key.setdefault(key, len(self.rules))
        self.rules.append([*key, len(self.steps), len(walk)])
        self.steps += [list(step) for step in walk]

    def out_of_order(self):
        """12: some step's own rule does not come later."""
        rules = [(i, self.rule(h, n)) for i in range(len(self.rules)) for h, n in self.walk(i)]
        return any(rule is not None and rule <= i for i, rule in rules)

    def keys(self):
        return [tuple(rule[:2]) for rule in self.rules]


# Arrays in and out, 13 and 5

def taken(array, count, stride, limit):
    refuse_if(count > limit or count * stride > len(array), 13)
    return [list(array[i * stride:(i + 1) * stride]) for i in range(count)]


def load_store(case, prefix="", old=False):
    """13 for a graph handed in; an old one has no marks."""
    get = lambda name: case[prefix + name]
    letters = [r[0] for r in taken(get("letters"), get("letter_count"), 1, LETTERS)]
    nodes = taken(get("nodes"), get("node_count"), 4, NODES)
    links = taken(get("links"), get("link_count"), 3, LINKS)
    for name, start, length, mark in nodes:
        refuse_if(not 1 <= name <= MAX_ID or mark > 1, 13)
        refuse_if(length == 0 or start + length > len(letters), 13)
        refuse_if(any(letter not in TEN for letter in letters[start:start + length]), 13)
    ids, seen = {node[0] for node in nodes}, set()
    for u, v, mark in links:
        refuse_if(u >> 1 not in ids or v >> 1 not in ids or mark > 1, 13)
        refuse_if((u, v) != written(u, v) or (u, v) in seen, 13)
        seen.add((u, v))
    refuse_if(old and any(record[-1] for record in nodes + links), 13)
    return Store(nodes, letters, links)


def load_rules(case, events=False):
    """13 for a table handed in; an event list has no event without steps."""
    rules = taken(case["rules"], case["rule_count"], 4, RULES)
    steps = taken(case["steps"], case["step_count"], 2, STEPS)
    refuse_if(any(not 1 <= h >> 1 <= MAX_ID for h, _ in steps), 13)
    for name, _, first, number in rules:
        refuse_if(not 1 <= name <= MAX_ID or first + number > len(steps), 13)
        refuse_if(events and number == 0, 13)
    return Rules(rules, steps)


def once(*lists):
    """5: something given twice."""
    refuse_if(any(len(set(items)) < len(items) for items in lists), 5)


def ids_of(store):
    return [node[0] for node in store.nodes]


def fits(records, array, stride, limit):
    refuse_if(len(records) > limit or len(records) * stride > len(array), 7)


def put(array, records):
    """The records at the array's start; what lies behind them stays."""
    flat = [value for record in records for value in record]
    return flat + list(array[len(flat):])


def put_bytes(array, data):
    refuse_if(len(data) > len(array), 7)
    return list(data) + list(array[len(data):])


def put_state(case, store, events):
    return {"nodes": put(case["nodes"], store.nodes), "links": put(case["links"], store.links),
            "rules": put(case["rules"], events.rules), "steps": put(case["steps"], events.steps),
            "node_count": len(store.nodes), "letter_count": case["letter_count"],
            "link_count": len(store.links), "rule_count": len(events.rules),
            "step_count": len(events.steps)}


# Prefix, groups, collapse, driver

def refuse_members(store, members, least):
    """8: too few, one absent or marked, one node twice either way round."""
    refuse_if(len(members) < least or not all(store.live(m) for m in members), 8)
    refuse_if(len({m >> 1 for m in members}) < len(members), 8)


def prefix_length(store, members):
    spelled = [store.spell(m).upper() for m in members]
    shortest, n = min(map(len, spelled)), 0
    while n < shortest and spelled[0][n] in b"ACGT" and all(s[n] == spelled[0][n] for s in spelled):
        n += 1
    return n


def groups(store, v):
    met = {}  # a dict keeps its keys in the order they were met
    for u in store.right(v):
        key = (store.spell(u)[:1].upper(), frozenset(store.left(u)))
        met.setdefault(key, []).append(u)
    return [[u for u in reversed(g) if u & 1] + [u for u in g if not u & 1] for g in met.values()]


def cut(store, member, p):
    """The member's first p letters as oriented, and the rest: both oriented as it is."""
    if member & 1:
        fresh = store.split(flip(member), store.length(member) - p)
        return flip(fresh), member
    return member, store.split(member, p)


def pass_links(store, member, shared):
    stand_in = {member: shared, flip(member): flip(shared)}
    for y in store.right(member):
        store.make_link(shared, stand_in.get(y, y))


def make_collapse(store, events, members, p):
    """The collapse itself; returns the shared node. Nothing is tested here."""
    shared = None
    for at, member in enumerate(members):
        before, prefix, suffix = store.length(member), member, None
        if before > p:
            prefix, suffix = cut(store, member, p)
        if shared is None:
            shared = prefix
        else:
            if suffix is None:
                pass_links(store, member, shared)
            else:
                store.make_link(shared, suffix)
            store.node(prefix)[3] = 1
        walk = [(shared, p)] + ([(suffix, before - p)] if suffix is not None else [])
        if at > 0 or suffix is not None:
            events.add((member >> 1, before), turned(walk) if member & 1 else walk)
    return shared


def collapse_into(case, store, events, members, p):
    """One collapse over copies, with its refusals 8 to 12 and 7 in order."""
    refuse_members(store, members, 2)
    refuse_if(not 1 <= p <= prefix_length(store, members), 9)
    refuse_if(any(store.left(m) != store.left(members[0]) for m in members), 10)
    splits = sum(store.length(m) > p for m in members)
    refuse_if(max(ids_of(store)) + splits > MAX_ID, 11)
    store, events = store.copy(), events.copy()
    shared = make_collapse(store, events, members, p)
    once(events.keys())
    refuse_if(events.out_of_order(), 12)
    fits(store.nodes, case["nodes"], 4, NODES)
    fits(store.links, case["links"], 3, LINKS)
    fits(events.rules, case["rules"], 4, RULES)
    fits(events.steps, case["steps"], 2, STEPS)
    return store, events, shared


def next_group(store, protected):
    """The first group that the driver must collapse, with its full prefix length."""
    for node in sorted(store.nodes):
        for v in (node[0] * 2, node[0] * 2 + 1):
            for group in groups(store, v) if node[3] == 0 else []:
                ids = {u >> 1 for u in group}
                if len(group) < 2 or len(ids) < len(group) or ids & protected:
                    continue
                if prefix_length(store, group):
                    return group, prefix_length(store, group)
    return None


def live_letters(case):
    store = load_store(case)
    once(ids_of(store))
    return {"total": sum(node[2] for node in store.nodes if node[3] == 0)}


def get_shared_prefix(case):
    store, members = load_store(case), case["members"]
    once(ids_of(store))
    refuse_members(store, members, 1)
    length = prefix_length(store, members)
    return {"length": length, "room": put_bytes(case["room"], store.spell(members[0])[:length])}


def enumerate_branch(case):
    store, v = load_store(case), case["v"]
    once(ids_of(store))
    refuse_if(not store.live(v), 8)
    found = groups(store, v)
    members = [[u] for group in found for u in group]
    ends = [[sum(map(len, found[:i + 1]))] for i in range(len(found))]
    fits(members, case["members"], 1, len(members))
    fits(ends, case["ends"], 1, len(ends))
    return {"groups": len(found), "members": put(case["members"], members),
            "ends": put(case["ends"], ends)}


def collapse(case):
    store, events = load_store(case), load_rules(case, events=True)
    once(ids_of(store), events.keys())
    store, events, shared = collapse_into(case, store, events, case["members"], case["p"])
    return {"shared": shared, **put_state(case, store, events)}


def collapse_all(case):
    store, events, protected = load_store(case), load_rules(case, events=True), case["protected"]
    once(ids_of(store), events.keys(), protected)
    refuse_if(not set(protected) <= set(ids_of(store)), 6)
    refuse_if(events.out_of_order(), 12)
    refuse_if(len(protected) > PROTECTED, 7)
    made, number = 0, 0
    found = next_group(store, set(protected))
    while found and not number:
        try:
            store, events, _ = collapse_into(case, store, events, *found)
            made += 1
            found = next_group(store, set(protected))
        except No as no:
            number = no.number
    return {"number": number, "collapses": made, **put_state(case, store, events)}


# Expansion, rewriting, spelling

def image(table, store, h):
    """The walk that stands for one step: its rule's under the old length, else itself."""
    rule = table.rule(h, store.length(h))
    if rule is None:
        return [(h, store.length(h))]
    walk = table.walk(rule)
    return turned(walk) if h & 1 else walk


def expand(case):
    events = load_rules(case, events=True)
    once(events.keys())
    refuse_if(events.out_of_order(), 12)
    size, walks = {}, {}
    for i in reversed(range(len(events.rules))):
        size[i] = sum(size.get(events.rule(h, n), 1) for h, n in events.walk(i))
    total = sum(size.values())
    refuse_if(len(size) * 4 > len(case["table_rules"]), 7)
    refuse_if(total > STEPS or total * 2 > len(case["table_steps"]), 7)
    for i in reversed(range(len(events.rules))):
        walks[i] = []
        for h, n in events.walk(i):
            later = walks.get(events.rule(h, n), [(h & ~1, n)])
            walks[i] += turned(later) if h & 1 else later
    table = Rules([], [])
    for i, key in enumerate(events.keys()):
        table.add(key, walks[i])
    return {"rule_count": len(table.rules), "step_count": len(table.steps),
            "table_rules": put(case["table_rules"], table.rules),
            "table_steps": put(case["table_steps"], table.steps)}


def transform_walk(case):
    old, table = load_store(case, old=True), load_rules(case)
    once(ids_of(old), table.keys())
    refuse_if(any(old.node(h) is None for h in case["walk"]), 6)
    steps = [[h] for step in case["walk"] for h, _ in image(table, old, step)]
    fits(steps, case["room"], 1, len(steps))
    return {"length": len(steps), "room": put(case["room"], steps)}


def spell_walk(case):
    store, walk = load_store(case), case["walk"]
    once(ids_of(store))
    refuse_if(any(store.node(h) is None for h in walk), 6)
    for i in range(1, len(walk)):
        refuse_if(store.link(walk[i - 1], walk[i]) is None, 23, i)
    letters = b"".join(store.spell(h) for h in walk)
    return {"place": 0, "length": len(letters), "room": put_bytes(case["room"], letters)}


# The checker

def check_rule(old, new, table, i):
    """Conditions 1 to 4 on one rule."""
    key, length = table.keys()[i]
    walk = table.walk(i)
    refuse_if(not walk, 20, i, 0)
    for j, (h, recorded) in enumerate(walk):
        refuse_if(not new.live(h), 21, i, j)
        refuse_if(new.length(h) != recorded, 22, i, j)
        refuse_if(j > 0 and not new.live_link(walk[j - 1][0], h), 23, i, j)
    refuse_if(sum(recorded for _, recorded in walk) != length, 24, i, 0)
    if old.node(key * 2) is not None and old.length(key * 2) == length:
        spelled = b"".join(new.spell(h) for h, _ in walk)
        refuse_if(spelled.upper() != old.spell(key * 2).upper(), 25, i, 0)


def check_rest(old, new, table, protected):
    """Conditions 5 to 7: silent nodes, links, protected ids."""
    for key in sorted(ids_of(old)):
        if table.rule(key * 2, old.length(key * 2)) is None:
            same = new.live(key * 2) and new.spell(key * 2).upper() == old.spell(key * 2).upper()
            refuse_if(not same, 26, key, 0)
    for at, (u, v, _) in enumerate(sorted(old.links)):
        last, first = image(table, old, u)[-1][0], image(table, old, v)[0][0]
        refuse_if(not new.live_link(last, first), 27, at, 0)
    stood = set()
    for at, key in enumerate(protected):
        rule = table.rule(key * 2, old.length(key * 2))
        for h, _ in table.walk(rule) if rule is not None else []:
            refuse_if(h >> 1 in stood, 28, at, 0)
            stood.add(h >> 1)


def check_transform(case):
    old, new = load_store(case, "old_", old=True), load_store(case, "new_")
    table, protected = load_rules(case), case["protected"]
    once(ids_of(old), ids_of(new), table.keys(), protected)
    refuse_if(not set(protected) <= set(ids_of(old)), 6)
    for i in range(len(table.rules)):
        check_rule(old, new, table, i)
    check_rest(old, new, table, protected)
    return {"place1": 0, "place2": 0}


# Reading

def text_lines(text, kinds):
    """Lines of those kinds, cut into fields at tabs, in file order."""
    lines = [line.split(b"\t") for line in bytes(text).split(b"\n")]
    return [line for line in lines if line[0] in kinds]


def read_name(name):
    refuse_if(not re.fullmatch(rb"[1-9][0-9]*", name) or int(name) > MAX_ID, 2)
    return int(name)


def read_field(field):
    refuse_if(not field, 1)
    return field


def read_sign(sign):
    refuse_if(sign not in (b"+", b"-"), 1)
    return int(sign == b"-")


def path_steps(field):
    """Signed names between commas; the sign is a step's last byte."""
    steps = []
    for step in read_field(field).split(b","):
        sign = read_sign(step[-1:])
        steps.append(read_name(step[:-1]) * 2 + sign)
    return steps


def walk_steps(field):
    """> or <, each followed by a name."""
    steps = []
    refuse_if(read_field(field)[:1] not in (b">", b"<"), 1)
    for sign, name in re.findall(rb"([><])([^><]*)", field):
        refuse_if(not name, 1)
        steps.append(read_name(name) * 2 + (sign == b"<"))
    return steps


def read_line(line):
    """Pass one on one line: field count, byte 13, fields left to right."""
    kind = line[0]
    refuse_if(len(line) < {b"S": 3, b"L": 6, b"P": 4, b"W": 7}[kind], 1)
    refuse_if(any(b"\r" in field for field in line), 1)
    if kind == b"S":
        name = read_name(read_field(line[1]))
        refuse_if(any(letter not in TEN for letter in read_field(line[2])), 3)
        return name, line[2]
    if kind == b"L":
        u = read_name(read_field(line[1])) * 2 + read_sign(read_field(line[2]))
        v = read_name(read_field(line[3])) * 2 + read_sign(read_field(line[4]))
        refuse_if(read_field(line[5]) not in (b"0M", b"*"), 4)
        return u, v
    if kind == b"P":
        read_field(line[1])
        steps = path_steps(line[2])
        read_field(line[3])
        return steps
    for field in line[1:6]:
        read_field(field)
    return walk_steps(line[6])


def read_gfa(case):
    lines = text_lines(case["text"], (b"S", b"L", b"P", b"W"))
    nodes, letters, links, said = [], [], [], []
    for line in lines:
        said.append(read_line(line))
        if line[0] == b"S":
            name, sequence = said[-1]
            refuse_if(name in [node[0] for node in nodes], 5)
            nodes.append([name, len(letters), len(sequence), 0])
            letters += sequence
            fits(nodes, case["nodes"], 4, NODES)
            fits(letters, case["letters"], 1, LETTERS)
    declared = {node[0] for node in nodes}
    for line, said_here in zip(lines, said):
        refuse_if(line[0] != b"S" and not {h >> 1 for h in said_here} <= declared, 6)
        if line[0] == b"L" and [*written(*said_here), 0] not in links:
            links.append([*written(*said_here), 0])
            fits(links, case["links"], 3, LINKS)
    return {"node_count": len(nodes), "letter_count": len(letters), "link_count": len(links),
            "nodes": put(case["nodes"], nodes), "links": put(case["links"], links),
            "letters": letters + list(case["letters"][len(letters):])}


# Writing

def sign_text(h):
    return b"-" if h & 1 else b"+"


def walk_text(walk):
    return b"".join((b"<" if h & 1 else b">") + b"%d" % (h >> 1) for h in walk)


def graph_lines(store):
    lines = [b"S\t%d\t%s\n" % (node[0], store.spell(node[0] * 2))
             for node in sorted(store.nodes) if node[3] == 0]
    for u, v, _ in sorted(store.links):
        if store.live_link(u, v):
            ends = (u >> 1, sign_text(u), v >> 1, sign_text(v))
            lines.append(b"L\t%d\t%s\t%d\t%s\t0M\n" % ends)
    return b"".join(lines)


def table_lines(old, table):
    lines = [b"original_node\ttransformed_walk\tbp_length\n"]
    for key in sorted(ids_of(old)):
        walk = [h for h, _ in image(table, old, key * 2)]
        if walk != [key * 2]:
            lines.append(b"%d\t%s\t%d\n" % (key, walk_text(walk), old.length(key * 2)))
    return b"".join(lines)


def path_line(line, walk):
    if line[0] == b"W":
        return b"\t".join(line[:6]) + b"\t" + walk_text(walk) + b"\n"
    steps = b",".join(b"%d%s" % (h >> 1, sign_text(h)) for h in walk)
    return b"P\t%s\t%s\t*\n" % (line[1], steps)


def path_lines(text, old, table):
    lines = text_lines(text, (b"P", b"W"))
    said = [read_line(line) for line in lines]
    refuse_if(any(old.node(h) is None for steps in said for h in steps), 6)
    walks = [[h for step in steps for h, _ in image(table, old, step)] for steps in said]
    return b"".join(path_line(line, walk) for line, walk in zip(lines, walks))


def print_active_subgraph(case):
    store = load_store(case)
    once(ids_of(store))
    text = graph_lines(store)
    return {"length": len(text), "room": put_bytes(case["room"], text)}


def print_transformations(case):
    old, table = load_store(case, old=True), load_rules(case)
    once(ids_of(old), table.keys())
    text = table_lines(old, table)
    return {"length": len(text), "room": put_bytes(case["room"], text)}


def parse_and_transform_paths(case):
    old, table = load_store(case, old=True), load_rules(case)
    once(ids_of(old), table.keys())
    text = path_lines(case["text"], old, table)
    return {"length": len(text), "room": put_bytes(case["room"], text)}


def parse_header(case):
    lines = bytes(case["text"]).split(b"\n")
    return {"text": list(next((x for x in lines if x[:1] == b"H"), bytes(case["fallback"])))}


def run(case):
    """Read, collapse, expand, check and write, with room for all of it."""
    text = case["text"]
    room = {"nodes": [0] * 4096, "letters": [0] * 4096, "links": [0] * 4096}
    state = {**room, "text": text, **done(read_gfa({**room, "text": text}))}
    state.update(rules=[0] * 4096, steps=[0] * 4096, rule_count=0, step_count=0)
    old = load_store(state, old=True)
    state.update(done(collapse_all({**state, "protected": case["protected"]})))
    new = load_store(state)
    state.update(table_rules=state["rules"], table_steps=[0] * 65536)
    expanded = done(expand(state))
    table = Rules(taken(expanded["table_rules"], expanded["rule_count"], 4, RULES),
                  taken(expanded["table_steps"], expanded["step_count"], 2, STEPS))
    for i in range(len(table.rules)):
        check_rule(old, new, table, i)
    check_rest(old, new, table, case["protected"])
    header = parse_header({"text": text, "fallback": b"H\tVN:Z:1.1"})["text"]
    return {"header": header, "graph": graph_lines(new), "paths": path_lines(text, old, table),
            "table": table_lines(old, table)}


def done(answer):
    refuse_if(answer.get("number", 0), answer.get("number", 0))
    return answer


OPERATIONS = [live_letters, get_shared_prefix, enumerate_branch, collapse, collapse_all, expand,
              transform_walk, spell_walk, check_transform, read_gfa, print_active_subgraph,
              print_transformations, parse_and_transform_paths, parse_header, run]
BY_NAME = {operation.__name__: operation for operation in OPERATIONS}


def refused(op, case, no):
    """A refusal changes no lent byte, but for a reading, which clears its stores."""
    answer = {**case, "number": no.number}
    zeros = ["total", "length", "groups", "shared", "collapses"]
    if op in ("read_gfa", "expand"):
        zeros += ["node_count", "letter_count", "link_count", "rule_count", "step_count"]
    if op == "read_gfa":
        answer.update({name: [0] * len(case[name]) for name in ("nodes", "letters", "links")})
    answer.update({name: 0 for name in zeros})
    places = dict(zip(("place1", "place2"), (*no.places, 0, 0)))
    return {**answer, **places, "place": places["place1"]}


def answer(op, case):
    """The whole answer: number, places, results, and every lent array after the call."""
    try:
        return {**case, "number": 0, **BY_NAME[op](case)}
    except No as no:
        return refused(op, case, no)
