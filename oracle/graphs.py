"""Small graphs of every awkward kind, sound and damaged, and their arrays."""
from model import COMPLEMENT, MAX_ID, TEN, flip, written

BIG = 2 ** 64 - 1


class Graph:
    """ids to letters in slot order, links in written form, and marks of both."""

    def __init__(self):
        self.nodes, self.links, self.marked = {}, [], set()

    def add(self, letters, reverse=False):
        """A fresh node that reads so when oriented so; returns it oriented."""
        name = len(self.nodes) + 1
        self.nodes[name] = letters[::-1].translate(COMPLEMENT) if reverse else letters
        return name * 2 + reverse

    def link(self, u, v):
        if written(u, v) not in self.links:
            self.links.append(written(u, v))

    def handles(self):
        return [name * 2 + side for name in self.nodes for side in (0, 1)]


def letters_of(r, alphabet, low, high):
    return bytes(r.choice(alphabet) for _ in range(r.randint(low, high)))


def any_links(r, graph, share):
    ends = graph.handles()
    for u in ends:
        for v in ends:
            if r.random() < share:
                graph.link(u, v)


def tiny(r):
    """One to three nodes, few letters, many links: loops and hairpins on every side."""
    graph = Graph()
    alphabet = r.choice([b"A", b"AC", b"AT", b"ACGT"])
    for _ in range(r.randint(1, 3)):
        graph.add(letters_of(r, alphabet, 1, r.choice([1, 2, 4])))
    any_links(r, graph, r.choice([0.1, 0.25, 0.5]))
    return graph


def net(r):
    graph = Graph()
    alphabet = r.choice([b"AC", b"ACGT", b"AT"])
    for _ in range(r.randint(3, 7)):
        graph.add(letters_of(r, alphabet, 1, 4))
    any_links(r, graph, r.choice([0.03, 0.08, 0.15]))
    return graph


def fan(r):
    """A node whose right neighbours share a prefix; either way round, exact or longer."""
    graph = Graph()
    v = graph.add(letters_of(r, b"ACGT", 1, 3), r.random() < 0.3)
    prefix = letters_of(r, b"ACGT", 1, 4)
    members = []
    for _ in range(r.randint(2, 5)):
        rest = letters_of(r, b"ACGT", 0, r.choice([0, 2, 4]))
        members.append(graph.add(prefix + rest, r.random() < 0.4))
    ends = [graph.add(letters_of(r, b"ACGT", 1, 2)) for _ in range(r.randint(0, 2))]
    parents = [v] + ends[:r.randint(0, 1)]
    for m in members:
        for parent in parents:
            if r.random() < 0.98:
                graph.link(parent, m)
        for y in ends + [flip(e) for e in ends]:
            if r.random() < 0.3:
                graph.link(m, y)
    knot(r, graph, members)
    return graph


def knot(r, graph, members):
    """Loops, hairpins, links among members, and one node met both ways round.

    Most of these leave the members' left sets equal, so that the group stays one.
    """
    share, noise = r.choice([0, 0.15, 0.4]), r.choice([0, 0, 0.15])
    for m in members:
        if r.random() < share:
            graph.link(m, flip(m))
        if r.random() < share:
            for other in members:
                graph.link(m, other)
        if r.random() < share:
            graph.link(m, flip(r.choice(members)))
        if r.random() < noise:
            graph.link(r.choice([m, flip(m)]), r.choice(members))
    if r.random() < share / 2:
        for m in members:
            for other in members:
                graph.link(flip(m), other)
    if r.random() < noise:
        graph.link(2, flip(r.choice(members)))


def twice(r):
    """A palindrome, or a node whose ends agree, met both ways round."""
    graph = Graph()
    v = graph.add(letters_of(r, b"ACGT", 1, 2))
    half = letters_of(r, b"ACGT", 1, 2)
    inner = letters_of(r, b"ACGT", 0, 2)
    m = graph.add(half + inner + half[::-1].translate(COMPLEMENT))
    graph.link(v, m)
    graph.link(v, flip(m))
    for _ in range(r.randint(0, 2)):
        graph.link(v, graph.add(half + letters_of(r, b"ACGT", 0, 2), r.random() < 0.5))
    any_links(r, graph, 0.03)
    return graph


def chain(r):
    """A long row of nodes with bubbles, so that one collapse opens the next."""
    graph = Graph()
    last = [graph.add(letters_of(r, b"ACGT", 1, 3))]
    for _ in range(r.randint(4, 10)):
        prefix = letters_of(r, b"AC", 1, 3)
        width = r.choice([1, 1, 2, 3])
        here = [graph.add(prefix + letters_of(r, b"AC", 0, 2), r.random() < 0.2) for _ in range(width)]
        for u in last:
            for v in here:
                graph.link(u, v)
        last = here
    return graph


def odd_letters(r, graph):
    """Lower case and N, here and there."""
    case, gap = r.choice([0, 0.1, 0.5]), r.choice([0, 0, 0.1])
    for name, letters in graph.nodes.items():
        changed = [ord("N") if r.random() < gap else letter for letter in letters]
        graph.nodes[name] = bytes(c + 32 if r.random() < case else c for c in changed)


def renamed(r, graph):
    """Other ids: in gaps, at the top of the range, or out of order."""
    count = len(graph.nodes)
    names = {"same": range(1, count + 1), "gaps": r.sample(range(1, 40 + count), count),
             "top": [MAX_ID - r.randint(0, 3) - i for i in range(count)],
             "mixed": r.sample(range(1, count + 1), count)}
    chosen = names[r.choice(["same", "same", "gaps", "top", "mixed"])]
    to = dict(zip(graph.nodes, chosen))
    fresh = Graph()
    fresh.nodes = {to[name]: letters for name, letters in graph.nodes.items()}
    for u, v in graph.links:
        fresh.link(to[u >> 1] * 2 + (u & 1), to[v >> 1] * 2 + (v & 1))
    return fresh


def any_graph(r, marks=False, busy=False):
    """Any kind of graph; busy ones mostly have something to collapse."""
    kinds = [tiny] + [fan] * 4 + [chain] * 3 if busy else [tiny, tiny, net, fan, fan, twice, chain]
    graph = r.choice(kinds)(r)
    if r.random() < 0.03:
        graph = Graph()
    odd_letters(r, graph)
    graph = renamed(r, graph)
    slots = list(graph.nodes.items())
    if r.random() < 0.5:
        r.shuffle(slots)
        r.shuffle(graph.links)
    graph.nodes = dict(slots)
    if marks and r.random() < 0.5:
        share = r.choice([0.05, 0.2])
        graph.marked = {x for x in [*graph.nodes, *graph.links] if r.random() < share}
    return graph


# Arrays

def junk(r, most, low=0, high=9):
    return [r.randint(low, high) for _ in range(r.choice([0, 0, r.randint(0, most)]))]


def laid_out(r, graph):
    """Letters and spans; spans may overlap and letters may belong to no node."""
    letters, spans = b"", {}
    for name, sequence in graph.nodes.items():
        if r.random() < 0.1:
            letters += bytes(r.choice(b"ACGTNx\0") for _ in range(r.randint(1, 3)))
        at = letters.find(sequence) if r.random() < 0.1 else -1
        if at < 0:
            at = len(letters)
            letters += sequence
        spans[name] = at
    return letters, spans


def store_fields(r, graph):
    """A graph as a case has it, with lent room behind what is in use."""
    letters, spans = laid_out(r, graph)
    nodes, links = [], []
    for name, sequence in graph.nodes.items():
        nodes += [name, spans[name], len(sequence), int(name in graph.marked)]
    for u, v in graph.links:
        links += [u, v, int((u, v) in graph.marked)]
    return {"nodes": nodes + junk(r, 9), "letters": list(letters) + junk(r, 4, 0, 255),
            "links": links + junk(r, 7), "node_count": len(graph.nodes),
            "letter_count": len(letters), "link_count": len(graph.links)}


def set_at(r, array, count, stride, field, values):
    """One record's field becomes one of the values, if there is a record."""
    records = min(count, len(array) // stride)
    if records:
        array[r.randrange(records) * stride + field] = r.choice(values)


def repeat_record(r, case, kind, count, stride):
    """One more record, the same as one that stands."""
    if case[count] and len(case[kind]) >= case[count] * stride:
        at, end = r.randrange(case[count]) * stride, case[count] * stride
        case[kind][end:end] = case[kind][at:at + stride]
        case[count] += 1


def damage_store(r, case, prefix=""):
    """One thing that makes a store ill-formed, or just about."""
    key = lambda name: prefix + name
    nodes, letters, links = (case[key(name)] for name in ("nodes", "letters", "links"))
    n, m, k = (case[key(name)] for name in ("node_count", "letter_count", "link_count"))
    ids = [0, 1, MAX_ID, MAX_ID + 1, BIG] + nodes[0:4 * n:4]
    ends = [0, 1, 2, 3, 2 * MAX_ID + 1, 2 * MAX_ID + 2, BIG]
    edits = [
        lambda: set_at(r, nodes, n, 4, 0, ids),
        lambda: set_at(r, nodes, n, 4, 1, [0, 1, max(m - 1, 0), m, m + 1, BIG]),
        lambda: set_at(r, nodes, n, 4, 2, [0, 1, m, m + 1, BIG]),
        lambda: set_at(r, nodes, n, 4, 3, [1, 2, BIG]),
        lambda: set_at(r, letters, m, 1, 0, list(TEN + b"BXZ*\0\xff")),
        lambda: set_at(r, links, k, 3, r.randrange(2), ends + [x ^ 1 for x in links[0:2]]),
        lambda: set_at(r, links, k, 3, 2, [1, 2, BIG]),
        lambda: repeat_record(r, case, key("nodes"), key("node_count"), 4),
        lambda: repeat_record(r, case, key("links"), key("link_count"), 3),
        lambda: case.update({key("node_count"): r.choice([len(nodes) // 4 + 1, BIG, 65537])}),
        lambda: case.update({key("letter_count"): r.choice([len(letters) + 1, BIG, max(m - 1, 0)])}),
        lambda: case.update({key("link_count"): r.choice([len(links) // 3 + 1, BIG])}),
        lambda: nodes.__delitem__(slice(r.randint(0, len(nodes)), None)),
        lambda: turn_link(r, links, k),
    ]
    r.choice(edits)()


def turn_link(r, links, count):
    """A link in its other form: fine only where the two are the same."""
    if count and len(links) >= 3 * count:
        at = r.randrange(count) * 3
        links[at:at + 2] = [flip(links[at + 1]), flip(links[at])]
