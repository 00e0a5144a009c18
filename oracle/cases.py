"""Seeded cases for every operation, sound and damaged, in the replay line format."""
import random

import lines
import model
from graphs import BIG, any_graph, damage_store, junk, repeat_record, set_at, store_fields
from model import MAX_ID, flip
from texts import any_header_text, any_text

LOTS = [0] * 4000  # room enough for any of these cases
DAMAGED = []  # the chance that a text is damaged, where compare is told one


# Rules

def rule_fields(r, rules):
    """Rules (id, length, walk) as a case has them; walks may leave steps between them."""
    records, steps = [], []
    for key, length, walk in rules:
        if r.random() < 0.05:
            steps += [r.randint(2, 9), r.randint(0, 3)]
        records += [key, length, len(steps) // 2, len(walk)]
        steps += [number for step in walk for number in step]
    return {"rules": records + junk(r, 3), "steps": steps + junk(r, 1),
            "rule_count": len(rules), "step_count": len(steps) // 2}


def any_rules(r, graph, most=4, least=0):
    """Rules about the graph's own ids and lengths, and about others."""
    ids = [*graph.nodes, 1, 2, 7]
    length = lambda name: r.choice([len(graph.nodes.get(name, b"A")), r.randint(0, 4)])
    rules = {}
    for _ in range(r.randint(0, most)):
        name = r.choice(ids)
        walk = [name] if r.random() < 0.2 else [r.choice(ids) for _ in range(r.randint(least, 3))]
        rules[name, length(name)] = [(n * 2 + r.randint(0, 1), length(n)) for n in walk]
    return [(*key, walk) for key, walk in rules.items()]


def ordered_rules(r, most):
    """An event list in which each step's own rule, if any, comes later."""
    keys = r.sample([(i, n) for i in range(1, 9) for n in range(1, 4)], r.randint(0, most))
    rules = []
    for at, key in enumerate(keys):
        pool = keys[at + 1:] * 2 + [(r.randint(20, 25), r.randint(0, 3))]
        walk = [r.choice(pool) for _ in range(r.choice([1, 2, 2, 3]))]
        rules.append((*key, [(i * 2 + r.randint(0, 1), n) for i, n in walk]))
    return rules


def damage_rules(r, case):
    """One thing that makes a table or list ill-formed, or just about."""
    rules, steps, n, m = case["rules"], case["steps"], case["rule_count"], case["step_count"]
    ids = [0, 1, MAX_ID, MAX_ID + 1, BIG]
    edits = [
        lambda: set_at(r, rules, n, 4, 0, ids + rules[0:4 * n:4]),
        lambda: set_at(r, rules, n, 4, 1, [0, 1, 2, 3, BIG]),
        lambda: set_at(r, rules, n, 4, 2, [0, max(m - 1, 0), m, m + 1, BIG]),
        lambda: set_at(r, rules, n, 4, 3, [0, 1, m, m + 1, BIG]),
        lambda: set_at(r, steps, m, 2, 0, [0, 1, 2, 3, 2 * MAX_ID + 1, 2 * MAX_ID + 2, BIG]),
        lambda: set_at(r, steps, m, 2, 1, [0, 1, 2, BIG]),
        lambda: repeat_record(r, case, "rules", "rule_count", 4),
        lambda: case.update(rule_count=r.choice([len(rules) // 4 + 1, BIG, max(n - 1, 0)])),
        lambda: case.update(step_count=r.choice([len(steps) // 2 + 1, BIG, max(m - 1, 0)])),
    ]
    r.choice(edits)()


def room_for(r, op, case, names):
    """Room a little above, at, or below what the answer needs: 7 and its border."""
    case = {**case, **{name: list(LOTS) for name in names}}
    answer = model.answer(op, case)
    for name in names:
        need = answer.get("length", 0)
        if op == "enumerate_branch":
            need = answer["groups"] if name == "ends" else len(used(answer))
        size = max(0, need + r.choice([0, 0, 0, 1, 1, 3, 3, 5, -1, -need]))
        case[name] = [r.randint(0, 9) for _ in range(size)]
    return case


def used(answer):
    return [0] * (answer["ends"][answer["groups"] - 1] if answer["groups"] else 0)


# Members, walks, protected ids

def alike(store, ends, sets=True):
    """Oriented live nodes by first letter and left set, whether or not some v has them all."""
    met = {}
    for h in ends:
        if store.live(h):
            key = (store.spell(h)[:1].upper(), frozenset(store.left(h)) if sets else None)
            met.setdefault(key, []).append(h)
    lettered = [group for (letter, _), group in met.items() if letter != b"N"]
    return [group for group in lettered if len({h >> 1 for h in group}) > 1]


def some_members(r, graph, store):
    """A group that can be collapsed, most of the time as it is; else any oriented nodes."""
    ends = graph.handles() or [2]
    met = [g for v in ends if store.live(v) for g in model.groups(store, v) if len(g) > 1]
    wide = met if met and r.random() < 0.6 else alike(store, ends, r.random() < 0.8)
    members = list(r.choice(wide)) if wide else ends[:3]
    if r.random() < 0.9:
        members = list({h >> 1: h for h in members}.values())
    if r.random() < 0.08:
        members = [r.choice(ends) for _ in range(r.randint(0, 3))]
    if r.random() < 0.05:
        members.append(r.choice([members[0] if members else 2, flip(r.choice(ends)), 0, 1, BIG, 98]))
    if r.random() < 0.3:
        r.shuffle(members)
    return members[:r.choice([1, 2, 2, 2, 3])] if r.random() < 0.2 else members


def some_walk(r, store, ends):
    """Steps along stored links, with a leap now and then."""
    walk = [r.choice(ends)] if ends else []
    for _ in range(r.choice([0, 1, 3, 6]) if ends else 0):
        onward = [v for v in ends if store.link(walk[-1], v) is not None]
        walk.append(r.choice(onward) if onward and r.random() < 0.95 else r.choice(ends))
    if r.random() < 0.08:
        walk.insert(r.randint(0, len(walk)), r.choice([0, 1, BIG, 98]))
    return walk if r.random() < 0.95 else []


def some_protected(r, graph):
    ids = list(graph.nodes)
    chosen = r.sample(ids, r.randint(0, min(3, len(ids)))) if r.random() < 0.5 else []
    if r.random() < 0.04:
        chosen.append(r.choice([0, MAX_ID + 1, BIG, 98]))
    if r.random() < 0.04 and chosen:
        chosen.append(chosen[0])
    return chosen


def some_text(r, graph, damage):
    return list(any_text(r, graph, *DAMAGED or [damage]))


# Cases by operation

def graph_case(r, damage=0.15, busy=False):
    graph = any_graph(r, marks=True, busy=busy)
    case = store_fields(r, graph)
    if r.random() < damage:
        damage_store(r, case)
    return graph, case


def loaded(case):
    """The store of a case, or an empty one where it is not well formed."""
    try:
        return model.load_store(case)
    except model.No:
        return model.Store([], [], [])


def live_letters(r):
    return graph_case(r, damage=0.4)[1]


def get_shared_prefix(r):
    graph, case = graph_case(r)
    case["members"] = some_members(r, graph, loaded(case))
    return room_for(r, "get_shared_prefix", case, ["room"])


def enumerate_branch(r):
    graph, case = graph_case(r)
    ends = graph.handles() or [2]
    forks = [v for v in ends if len(loaded(case).right(v)) > 1] or ends
    case["v"] = r.choice([r.choice(ends), r.choice(forks), r.choice(forks), r.choice(ends + [0, 1, BIG, 98])])
    return room_for(r, "enumerate_branch", case, ["members", "ends"])


STATE = (("nodes", "node_count", 4), ("links", "link_count", 3),
         ("rules", "rule_count", 4), ("steps", "step_count", 2))


def widened(case, records):
    return {**case, **{name: case[name] + [0] * (records * stride) for name, _, stride in STATE}}


def with_room(r, op, case):
    """Room behind nodes, links, rules and steps: more than enough, just enough, one short."""
    need = model.answer(op, widened(case, 400))
    short = r.choice([None] * 12 + [name for name, _, _ in STATE])
    for name, count, stride in STATE:
        records = need[count] - case[count] if need["number"] == 0 else 2
        records += r.choice([0, 0, 1, 5]) if name != short else -1
        case[name] = case[name] + [r.randint(0, 9) for _ in range(max(0, records) * stride)]
    return case


def go_on(r, case):
    """The state after a few collapses of the driver, with its own event list."""
    answer = model.answer("collapse_all", {**widened(case, 400), "protected": []})
    if answer["number"] == 0 and answer["collapses"]:
        keep = {name: answer[name] for name in case}
        for name, count, stride in STATE:
            keep[name] = keep[name][:keep[count] * stride]
        return keep
    return case


def state_case(r):
    graph, case = graph_case(r, damage=0.1, busy=r.random() < 0.7)
    sort = r.choice(["none", "none", "none", "none", "any", "ordered"])
    rules = {"none": [], "any": any_rules(r, graph, least=1), "ordered": ordered_rules(r, 4)}[sort]
    case.update(rule_fields(r, rules))
    if rules and r.random() < 0.15:
        damage_rules(r, case)
    return graph, case


def collapse(r):
    for _ in range(4):
        graph, case = state_case(r)
        if r.random() < 0.1:
            case = go_on(r, case)
        store = loaded(case)
        if alike(store, graph.handles()):
            break
    case["members"] = some_members(r, graph, store)
    known = [m for m in case["members"] if store.node(m)]
    full = model.prefix_length(store, known) if known else 0
    below = r.randint(1, full) if full else 1
    case["p"] = r.choice([full] * 20 + [below] * 5 + [0, full + 1, full + 1, 99, BIG])
    return with_room(r, "collapse", case)


def collapse_all(r):
    graph, case = state_case(r)
    case["protected"] = some_protected(r, graph)
    return with_room(r, "collapse_all", case)


def expand(r):
    rules = ordered_rules(r, 8)
    if r.random() < 0.15:
        r.shuffle(rules)
    case = rule_fields(r, rules)
    if r.random() < 0.25:
        damage_rules(r, case)
    answer = model.answer("expand", {**case, "table_rules": LOTS, "table_steps": [0] * 20000})
    for name, count, stride in (("table_rules", "rule_count", 4), ("table_steps", "step_count", 2)):
        need = answer[count] if answer["number"] == 0 else 0
        size = max(0, (need + r.choice([0, 0, 0, 1, -1])) * stride + r.choice([0, 0, 1]))
        case[name] = [r.randint(0, 9) for _ in range(size)]
    return case


def true_table(r):
    """Old graph, new graph and table as the driver and expansion make them."""
    graph = any_graph(r, busy=r.random() < 0.7)
    protected = [i for i in some_protected(r, graph) if i in graph.nodes]
    case = {**store_fields(r, graph), **rule_fields(r, []), "protected": list(dict.fromkeys(protected))}
    state = model.answer("collapse_all", widened(case, 400))
    table = model.answer("expand", {**state, "table_rules": LOTS, "table_steps": [0] * 20000})
    # Where the driver was refused, what it made so far is a true result all the same.
    rules = table["table_rules"][:table["rule_count"] * 4]
    steps = table["table_steps"][:table["step_count"] * 2]
    trim = {"nodes": state["node_count"] * 4, "links": state["link_count"] * 3, "letters": 10 ** 9}
    new = {f"new_{n}": list(state[n][:size]) for n, size in trim.items()}
    new.update({f"new_{n}": state[n] for n in ("node_count", "letter_count", "link_count")})
    old = {f"old_{n}": list(v) if isinstance(v, list) else v for n, v in case.items() if n in new_names()}
    return graph, {**old, **new, "rules": rules, "steps": steps, "rule_count": table["rule_count"],
                   "step_count": table["step_count"], "protected": case["protected"]}


def new_names():
    return lines.STORE.replace("*", "").split()


def table_edits(r, case):
    """Ways to make a true table false, or to leave it true by a hair."""
    rules, steps, n, m = case["rules"], case["steps"], case["rule_count"], case["step_count"]
    handles = case["new_nodes"][0:4 * case["new_node_count"]:4]
    marked = [name for name, mark in zip(handles, case["new_nodes"][3::4]) if mark]
    ends = [name * 2 + side for name in handles + marked for side in (0, 1)] + [98, 99]
    return [
        lambda: set_at(r, steps, m, 2, 0, ends),
        lambda: set_at(r, steps, m, 2, 0, [s ^ 1 for s in steps[0:2 * m:2]] or [2]),
        lambda: set_at(r, steps, m, 2, 1, [0, 1, 2, 3, BIG]),
        lambda: set_at(r, rules, n, 4, 0, list(case["old_nodes"][0:4:4]) + handles + [98]),
        lambda: set_at(r, rules, n, 4, 1, [0, 1, 2, 3, 4]),
        lambda: set_at(r, rules, n, 4, 3, [0, 1, 2]),
        lambda: set_at(r, rules, n, 4, 2, list(range(m + 1))),
        lambda: drop_rule(r, case),
        lambda: add_rule(r, case, ends),
        lambda: add_rule(r, case, [name * 2 for name in marked] or ends),
        lambda: set_at(r, case["new_nodes"], case["new_node_count"], 4, 3, [0, 1]),
        lambda: set_at(r, case["new_links"], case["new_link_count"], 3, 2, [0, 1]),
        lambda: drop_new_link(r, case),
        lambda: add_old_link(r, case),
        lambda: set_at(r, case["new_letters"], case["new_letter_count"], 1, 0, list(b"ACGTNacgtn")),
        lambda: set_at(r, case["old_letters"], case["old_letter_count"], 1, 0, list(b"ACGTNacgtn")),
        lambda: shift_lengths(r, case),
    ]


def drop_rule(r, case):
    if case["rule_count"]:
        at = r.randrange(case["rule_count"]) * 4
        del case["rules"][at:at + 4]
        case["rule_count"] -= 1


def add_rule(r, case, ends):
    """A rule of one or two steps, under an old key or an intermediate one."""
    length = lambda h: dict(zip(case["new_nodes"][0::4], case["new_nodes"][2::4])).get(h >> 1, 1)
    olds = case["old_nodes"][:4 * case["old_node_count"]]
    walk = [r.choice(ends) for _ in range(r.choice([1, 1, 2]))]
    total = sum(length(h) for h in walk)
    key = r.choice([(i, n) for i, n in zip(olds[0::4], olds[2::4])] + [(r.randint(30, 40), total)] * 3)
    case["rules"][case["rule_count"] * 4:] = [*key, case["step_count"], len(walk)]
    case["steps"][case["step_count"] * 2:] = [x for h in walk for x in (h, length(h))]
    case["rule_count"] += 1
    case["step_count"] += len(walk)


def drop_new_link(r, case):
    if case["new_link_count"]:
        at = r.randrange(case["new_link_count"]) * 3
        del case["new_links"][at:at + 3]
        case["new_link_count"] -= 1


def add_old_link(r, case):
    """One more old link, unless it is there."""
    count = case["old_link_count"]
    names = case["old_nodes"][0:4 * case["old_node_count"]:4]
    ends = [name * 2 + side for name in names for side in (0, 1)]
    stored = [tuple(case["old_links"][i * 3:i * 3 + 2]) for i in range(count)]
    if ends:
        link = model.written(r.choice(ends), r.choice(ends))
        if link not in stored:
            case["old_links"][count * 3:count * 3] = [*link, 0]
            case["old_link_count"] += 1


def shift_lengths(r, case):
    """Two recorded lengths changed so that their sum stays."""
    if case["step_count"] > 1:
        at = r.randrange(case["step_count"] - 1) * 2 + 1
        case["steps"][at] += 1
        case["steps"][at + 2] = max(0, case["steps"][at + 2] - 1)


def check_transform(r):
    graph, case = true_table(r)
    for _ in range(r.choice([0, 0, 1, 1, 1, 2])):
        r.choice(table_edits(r, case))()
    if r.random() < 0.2:
        keys = [i for i in case["rules"][0:4 * case["rule_count"]:4] if i in graph.nodes]
        case["protected"] = r.choice([some_protected(r, graph), list(dict.fromkeys(keys)), [*graph.nodes]])
    if r.random() < 0.06:
        r.choice([lambda: damage_store(r, case, "old_"), lambda: damage_store(r, case, "new_"),
                  lambda: damage_rules(r, case)])()
    return case


def old_and_table(r):
    """An unmarked graph with its true table, or with any rules."""
    graph, case = true_table(r)
    case = {name.removeprefix("old_"): value for name, value in case.items() if not name.startswith("new_")}
    del case["protected"]
    if r.random() < 0.4:
        case.update(rule_fields(r, any_rules(r, graph)))
    if r.random() < 0.08:
        r.choice([lambda: damage_store(r, case), lambda: damage_rules(r, case)])()
    return graph, case


def transform_walk(r):
    graph, case = old_and_table(r)
    case["walk"] = some_walk(r, loaded(case), graph.handles())
    return room_for(r, "transform_walk", case, ["room"])


def spell_walk(r):
    graph, case = graph_case(r)
    case["walk"] = some_walk(r, loaded(case), graph.handles())
    return room_for(r, "spell_walk", case, ["room"])


def read_gfa(r):
    case = {"text": some_text(r, any_graph(r), 0.5), "nodes": LOTS, "letters": LOTS, "links": LOTS}
    answer = model.answer("read_gfa", case)
    for name, count, stride in (("nodes", "node_count", 4), ("letters", "letter_count", 1),
                                ("links", "link_count", 3)):
        need = answer[count] if answer["number"] == 0 else r.choice([5, 40, 40, 40])
        size = max(0, (need + r.choice([0, 0, 1, 2, 5, 5, -1 if r.random() < 0.3 else 0])) * stride)
        case[name] = [r.randint(0, 9) for _ in range(size + r.choice([0, 0, 1]))]
    return case


def print_active_subgraph(r):
    case = graph_case(r)[1]
    return room_for(r, "print_active_subgraph", case, ["room"])


def print_transformations(r):
    case = old_and_table(r)[1]
    return room_for(r, "print_transformations", case, ["room"])


def parse_and_transform_paths(r):
    graph, case = old_and_table(r)
    case["text"] = some_text(r, graph, 0.3)
    return room_for(r, "parse_and_transform_paths", case, ["room"])


def parse_header(r):
    return {"text": list(any_header_text(r)), "fallback": r.choice([[], list(b"H\tVN:Z:1.1"), [255]])}


def run(r):
    graph = any_graph(r)
    return {"text": some_text(r, graph, 0.2), "protected": some_protected(r, graph)}


MAKERS = {op: globals()[op] for op in lines.SHAPES}


def generate(op, count, seed):
    """Case lines; the i-th depends on operation, seed and i alone."""
    for i in range(count):
        yield lines.encode_case(op, MAKERS[op](random.Random(f"{seed} {op} {i}")))
