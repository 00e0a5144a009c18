"""Hand-worked cases of spell_walk, transform_walk and expand, as hand_cases.py has them for the operations on a graph."""
from hand_cases import A, graph

MAX_ID = 4294967295


def spelled(why, number, letters, g, walk, room, place=0):
    after = list(letters) + room[len(letters):]
    return why, "spell_walk", [*g, walk, room], [number, place, len(letters), *g[:3], walk, after]


# 1+ to 2+, 2+ to 3-; letters of both cases
W = graph([b"AcN", b"GT", b"C"], [(2, 4), (4, 7)])
MARKED = [*W[:2], [2, 4, 1, 4, 7, 0], *W[3:]]
TWICE = [[1, 0, 1, 0, 1, 0, 1, 0], [A], [], 2, 1, 0]

SPELL_WALK = [
    spelled("C5", 0, b"NgT", W, [3], [0] * 3),
    spelled("no steps, no room", 0, b"", W, [], []),
    spelled("two steps in just the room that they need", 0, b"AcNGT", W, [2, 4], [9] * 5),
    spelled("one letter too few", 7, b"", W, [2, 4], [9] * 4),
    spelled("room to spare stays as it is", 0, b"GT", W, [4], [9] * 4),
    spelled("the same link from its other end", 0, b"ACNgT", W, [5, 3], [0] * 5),
    spelled("forward to reverse", 0, b"AcNGTG", W, [2, 4, 7], [0] * 6),
    spelled("the same link from its other end", 0, b"CAC", W, [6, 5], [0] * 3),
    spelled("no link from 2+ to 1+", 23, b"", W, [4, 2], [9] * 9, 1),
    spelled("no link at the third step", 23, b"", W, [2, 4, 6], [9] * 9, 2),
    spelled("the first of two", 23, b"", W, [4, 2, 6], [9] * 9, 1),
    spelled("a step to itself wants its own link", 23, b"", W, [2, 2], [9] * 9, 1),
    spelled("a marked link is stored", 0, b"AcNGT", MARKED, [2, 4], [0] * 5),
    spelled("a marked node is declared", 0, b"AcNGT", graph([b"AcN", b"GT"], [(2, 4)], (2,)), [2, 4], [0] * 5),
    spelled("an absent node", 6, b"", W, [2, 8], [9]),
    spelled("id 0", 6, b"", W, [1], [9]),
    spelled("an id out of range", 6, b"", W, [2**64 - 1], [9]),
    spelled("6 of a later step comes before 23", 6, b"", W, [4, 2, 8], [9]),
    spelled("23 comes before 7", 23, b"", W, [4, 2], [], 1),
    spelled("6 comes before 7", 6, b"", W, [8], []),
    spelled("13 comes before 6", 13, b"", graph([b"B"]), [8], []),
    spelled("5 comes before 6", 5, b"", TWICE, [8], []),
]


def listed(rules):
    """Rules (id, length, walk), a walk being (packed, length), as arrays that are just full."""
    records, steps = [], []
    for key, length, walk in rules:
        records += [key, length, len(steps) // 2, len(walk)]
        steps += [n for step in walk for n in step]
    return [records, steps, len(rules), len(steps) // 2]


def rewritten(why, number, image, g, table, walk, room):
    table = listed(table) if isinstance(table[0], tuple) else table
    after = list(image) + room[len(image):]
    return why, "transform_walk", [*g, *table, walk, room], [number, len(image), *g[:3], *table[:2], walk, after]


OLD = graph([b"A", b"ACG", b"ACT", b"G", b"TTT"])
C8_TABLE = [(2, 3, [(4, 2), (8, 1)]), (3, 3, [(4, 2), (10, 1)])]
NONE = [[], [], 0, 0]


def faulty(why, number, rules, steps, counts):
    return rewritten(why, number, [], OLD, [rules, steps, *counts], [4], [9] * 3)


TRANSFORM_WALK = [
    rewritten("C6", 0, [9, 5], OLD, [(2, 3, [(4, 2), (8, 1)])], [5], [0] * 2),
    rewritten("C7", 0, [16, 15], OLD, [(5, 3, [(14, 2), (17, 1)])], [11], [0] * 2),
    rewritten("forward", 0, [4, 8], OLD, C8_TABLE, [4], [0] * 3),
    rewritten("every step, in just the room that it needs", 0, [2, 4, 8, 4, 10], OLD, C8_TABLE, [2, 4, 6], [9] * 5),
    rewritten("one place too few", 7, [], OLD, C8_TABLE, [2, 4, 6], [9] * 4),
    rewritten("no rule: the step itself", 0, [2, 9], OLD, C8_TABLE, [2, 9], [0] * 2),
    rewritten("a rule under another length is not its rule", 0, [4], OLD, [(2, 2, [(8, 1)])], [4], [0]),
    rewritten("a rule without steps: an empty image", 0, [], OLD, [(2, 3, [])], [4], []),
    rewritten("once and not again", 0, [6], OLD, [(2, 3, [(6, 3)]), (3, 3, [(2, 1)])], [4], [0]),
    rewritten("a rule that names itself is no fault of a table", 0, [4], OLD, [(2, 3, [(4, 3)])], [4], [0]),
    rewritten("no steps, no room", 0, [], OLD, C8_TABLE, [], []),
    rewritten("an absent node", 6, [], OLD, C8_TABLE, [2, 12], [9]),
    rewritten("id 0", 6, [], OLD, C8_TABLE, [0], [9]),
    rewritten("6 comes before 7", 6, [], OLD, C8_TABLE, [12], []),
    rewritten("a marked node in the old graph", 13, [], graph([b"A"], marked=(1,)), NONE, [2], [9]),
    rewritten("a marked link in the old graph", 13, [], MARKED, NONE, [2], [9]),
    rewritten("5 of an id comes before 6", 5, [], TWICE, NONE, [4], [9]),
    faulty("a key of id 0", 13, [0, 3, 0, 1], [4, 1], (1, 1)),
    rewritten("a key of the largest id", 0, [4], OLD, [(MAX_ID, 3, [(4, 1)])], [4], [9] * 3),
    faulty("one above it", 13, [MAX_ID + 1, 3, 0, 1], [4, 1], (1, 1)),
    faulty("a step of id 0", 13, [2, 3, 0, 1], [1, 1], (1, 1)),
    rewritten("a step of the largest id", 0, [2 * MAX_ID + 1], OLD, [(2, 3, [(2 * MAX_ID + 1, 1)])], [4], [9] * 3),
    faulty("one above it", 13, [2, 3, 0, 1], [2 * MAX_ID + 2, 1], (1, 1)),
    faulty("a step in use that no rule has is looked at too", 13, [2, 3, 0, 1], [4, 1, 0, 1], (1, 2)),
    faulty("a walk just past the steps in use", 13, [2, 3, 1, 1], [4, 1, 6, 1], (1, 1)),
    faulty("first step and steps whose sum leaves 64 bits", 13, [2, 3, 2**63, 2**63], [4, 1], (1, 1)),
    faulty("a rule count just past the array", 13, [2, 3, 0, 1], [4, 1], (2, 1)),
    faulty("a step count just past the array", 13, [2, 3, 0, 1], [4, 1, 6], (1, 2)),
    faulty("counts past any array", 13, [], [], (2**64 - 1, 0)),
    faulty("counts past any array", 13, [], [], (0, 2**64 - 1)),
    faulty("a key twice", 5, [2, 3, 0, 1, 2, 3, 0, 0], [4, 1], (2, 1)),
    faulty("13 comes before 5", 13, [2, 3, 0, 1, 2, 3, 0, 2], [4, 1], (2, 1)),
    faulty("65,536 rules are within the limit: the number is 5, for the key", 5, [1] * 262144, [4, 1] * 2, (65536, 2)),
    faulty("65,537 rules are not", 13, [1] * 262148, [4, 1] * 2, (65537, 2)),
]


def expanded(why, events, table, room=(0, 0)):
    """Done, with so many numbers of room to spare in the table's two arrays."""
    e, t = listed(events), listed(table)
    spare = [[7] * n for n in room]
    before = [[8] * len(t[0]) + spare[0], [8] * len(t[1]) + spare[1]]
    return why, "expand", [*e, *before], [0, *t[2:], *e[:2], t[0] + spare[0], t[1] + spare[1]]


def unexpanded(why, number, events, rules=64, steps=64):
    """Refused; events as rules or as arrays and counts, and so many numbers of room."""
    e = listed(events) if not isinstance(events[0], list) else events
    room = [[8] * rules, [8] * steps]
    return why, "expand", [*e, *room], [number, 0, 0, *e[:2], *room]


C14_EVENTS = [(2, 3, [(4, 2), (8, 1)]), (2, 2, [(4, 1), (12, 1)])]
C14_TABLE = [(2, 3, [(4, 1), (12, 1), (8, 1)]), (2, 2, [(4, 1), (12, 1)])]


def chain(n, times=1):
    """Event i names event i + 1, so many times; the last one's step has no rule."""
    return [(i, 1, [(2 * i + 2, 1)] * times) for i in range(1, n + 1)]


EXPAND = [
    expanded("C14", C14_EVENTS, C14_TABLE),
    expanded("C14 with room to spare", C14_EVENTS, C14_TABLE, (5, 3)),
    unexpanded("C14 with one number too few for the rules", 7, C14_EVENTS, 7, 10),
    unexpanded("C14 with one number too few for the steps", 7, C14_EVENTS, 8, 9),
    expanded("no events, no room", [], []),
    expanded("a step that stands for a later rule, reversed", [(1, 3, [(7, 2), (4, 1)]), (3, 2, [(8, 1), (11, 1)])],
             [(1, 3, [(10, 1), (9, 1), (4, 1)]), (3, 2, [(8, 1), (11, 1)])]),
    expanded("twice reversed is forward", [(1, 1, [(5, 1)]), (2, 1, [(7, 1)]), (3, 1, [(8, 1), (11, 0)])],
             [(1, 1, [(8, 1), (11, 0)]), (2, 1, [(10, 0), (9, 1)]), (3, 1, [(8, 1), (11, 0)])]),
    expanded("three events, each naming the next twice", chain(3, 2),
             [(1, 1, [(8, 1)] * 8), (2, 1, [(8, 1)] * 4), (3, 1, [(8, 1)] * 2)]),
    unexpanded("70 events, each naming the next twice: more steps than 64 bits count", 7, chain(70, 2), 280, 65536),
    unexpanded("18 events, each naming the next twice: 524,286 steps are past the limit", 7, chain(18, 2), 280, 65536),
    unexpanded("an event that names itself", 12, [(1, 1, [(2, 1)])]),
    expanded("its id with another length has no rule", [(1, 1, [(2, 2)])], [(1, 1, [(2, 2)])]),
    unexpanded("an event that names the one before", 12, [(1, 1, [(4, 1)]), (2, 1, [(3, 1)])]),
    unexpanded("a key twice", 5, [(1, 1, [(4, 1)]), (1, 1, [(6, 1)])]),
    unexpanded("5 comes before 12", 5, [(1, 1, [(2, 1)]), (1, 1, [(2, 1)])]),
    unexpanded("12 comes before 7", 12, [(1, 1, [(2, 1)])], 0, 0),
    unexpanded("an event without steps", 13, [(1, 1, [])]),
    unexpanded("13 comes before 5", 13, [(1, 1, [(2, 1)]), (1, 1, [])]),
    unexpanded("a key of id 0", 13, [[0, 1, 0, 1], [4, 1], 1, 1]),
    unexpanded("a step of id 0", 13, [[1, 1, 0, 1], [0, 1], 1, 1]),
    unexpanded("a walk just past the steps in use", 13, [[1, 1, 0, 2], [4, 1, 6, 1], 1, 1]),
    unexpanded("a rule count just past the array", 13, [[1, 1, 0, 1, 9, 9, 0], [4, 1], 2, 1]),
    unexpanded("a step count just past the array", 13, [[1, 1, 0, 1], [4, 1, 9], 1, 2]),
    expanded("32,767 events, each naming the next: as long a chain as a case holds", chain(32767),
             [(i, 1, [(65536, 1)]) for i in range(1, 32768)]),
    unexpanded("a chain of 300, the last one naming the first", 12, chain(299) + [(300, 1, [(2, 1)])], 1200, 600),
]

CASES = SPELL_WALK + TRANSFORM_WALK + EXPAND
