"""Hand-worked cases of collapse and collapse_all, as hand_cases.py has them for the operations on a graph."""
from hand_cases import graph
from hand_walks import MAX_ID, listed

FREE = 9  # what stands in a free slot before


def roomy(array, free):
    return array + [FREE] * free


def lent(g, events, free):
    """The case's arrays and counts; `free` is how many numbers are free in nodes, links, rules and steps."""
    e = listed(events) if not (events and isinstance(events[0], list)) else events
    nodes, links, rules, steps = (roomy(a, n) for a, n in zip((g[0], g[2], e[0], e[1]), free))
    return [nodes, g[1], links, *g[3:], rules, steps, *e[2:]]


def after(asked, nodes, links, rules, steps):
    """The answer's counts and arrays: the records, then what was free behind them."""
    records = ((nodes, asked[0], 4), (links, asked[2], 3), (rules, asked[6], 4), (steps, asked[7], 2))
    counts = [len(r) // stride for r, _, stride in records]
    arrays = [r + before[len(r):] for r, before, _ in records]
    return [counts[0], asked[4], *counts[1:]], [arrays[0], asked[1], *arrays[1:]]


def collapsed(why, shared, g, events, free, members, p, nodes, links, rules, steps):
    asked = lent(g, events, free)
    counts, arrays = after(asked, nodes, links, rules, steps)
    return why, "collapse", [*asked, members, p], [0, shared, *counts, *arrays, members]


def refused(why, number, g, events=(), members=(4, 6), p=2, free=(8, 9, 8, 8)):
    asked, members = lent(g, list(events), free), list(members)
    arrays = [asked[0], asked[1], asked[2], asked[6], asked[7]]
    return why, "collapse", [*asked, members, p], [number, 0, *asked[3:6], *asked[8:10], *arrays, members]


def driven(why, number, made, g, events, free, protected, nodes, links, rules, steps):
    asked = lent(g, events, free)
    counts, arrays = after(asked, nodes, links, rules, steps)
    return why, "collapse_all", [*asked, protected], [number, made, *counts, *arrays, protected]


def undriven(why, number, g, events=(), protected=(), free=(8, 9, 8, 8)):
    """Nothing changes, whether refused or because there is nothing to collapse."""
    asked, protected = lent(g, list(events), free), list(protected)
    arrays = [asked[0], asked[1], asked[2], asked[6], asked[7]]
    return why, "collapse_all", [*asked, protected], [number, 0, *asked[3:6], *asked[8:10], *arrays, protected]


C8 = graph([b"A", b"ACG", b"ACT"], [(2, 4), (2, 6)])
C8_NODES = [1, 0, 1, 0, 2, 1, 2, 0, 3, 4, 2, 1, 4, 3, 1, 0, 5, 6, 1, 0]
C8_LINKS = [2, 4, 0, 2, 6, 0, 4, 8, 0, 6, 10, 0, 4, 10, 0]
C8_STATE = [C8_NODES, C8_LINKS, [2, 3, 0, 2, 3, 3, 2, 2], [4, 2, 8, 1, 4, 2, 10, 1]]
JUST = (8, 9, 8, 8)  # what C8 needs
OTHER = [(9, 4, [(18, 3), (20, 1)])]  # a list that has nothing to do with C8

APART = graph([b"A", b"ACG", b"ACT"], [(2, 4)])  # 3 has another left set
EXACT = graph([b"AC", b"AC", b"G", b"T"], [(2, 6), (4, 8)])
TOP = [[MAX_ID - 2, 0, 2, 0, MAX_ID - 1, 2, 1, 0], list(b"ACA"), [], 2, 3, 0]
OVER = [[MAX_ID - 2, 0, 2, 0, MAX_ID - 1, 2, 2, 0], list(b"ACAC"), [], 2, 4, 0]
TOPS = [2 * MAX_ID - 4, 2 * MAX_ID - 2]

COLLAPSE = [
    collapsed("C8, in just the room that it needs", 4, C8, [], JUST, [4, 6], 2, *C8_STATE),
    collapsed("C8 with room to spare", 4, C8, [], (13, 10, 11, 9), [4, 6], 2, *C8_STATE),
    refused("one number too few for the nodes", 7, C8, free=(7, 9, 8, 8)),
    refused("one number too few for the links", 7, C8, free=(8, 8, 8, 8)),
    refused("one number too few for the rules", 7, C8, free=(8, 9, 7, 8)),
    refused("one number too few for the steps", 7, C8, free=(8, 9, 8, 7)),
    collapsed("C8 at 1, below the shared prefix", 4, C8, [], JUST, [4, 6], 1,
              [1, 0, 1, 0, 2, 1, 1, 0, 3, 4, 1, 1, 4, 2, 2, 0, 5, 5, 2, 0], C8_LINKS,
              [2, 3, 0, 2, 3, 3, 2, 2], [4, 1, 8, 2, 4, 1, 10, 2]),
    collapsed("C8 after a list: appended", 4, C8, OTHER, JUST, [4, 6], 2, C8_NODES, C8_LINKS,
              [9, 4, 0, 2, 2, 3, 2, 2, 3, 3, 4, 2], [18, 3, 20, 1, 4, 2, 8, 1, 4, 2, 10, 1]),
    collapsed("3 first: it is the shared node", 6, C8, [], JUST, [6, 4], 2,
              [1, 0, 1, 0, 2, 1, 2, 1, 3, 4, 2, 0, 4, 6, 1, 0, 5, 3, 1, 0],
              [2, 4, 0, 2, 6, 0, 6, 8, 0, 4, 10, 0, 6, 10, 0], [3, 3, 0, 2, 2, 3, 2, 2], [6, 2, 8, 1, 6, 2, 10, 1]),
    refused("p is 0", 9, C8, p=0),
    refused("p just above the shared prefix", 9, C8, p=3),
    refused("p past any length", 9, C8, p=2**64 - 1),
    refused("one member", 8, C8, members=[4]),
    refused("no members", 8, C8, members=[]),
    refused("an absent member", 8, C8, members=[4, 8]),
    refused("id 0", 8, C8, members=[4, 0]),
    refused("a marked member", 8, graph([b"A", b"ACG", b"ACT"], [(2, 4), (2, 6)], (3,))),
    refused("one node twice", 8, C8, members=[4, 4]),
    refused("one node twice, the other way round", 8, C8, members=[4, 6, 5]),
    refused("another left set", 10, APART),
    collapsed("members of exactly p letters: the later one passes its links", 2, EXACT, [], (0, 3, 4, 2), [2, 4], 2,
              [1, 0, 2, 0, 2, 2, 2, 1, 3, 4, 1, 0, 4, 5, 1, 0], [2, 6, 0, 4, 8, 0, 2, 8, 0], [2, 2, 0, 1], [2, 2]),
    collapsed("a link that is stored is not made again", 2, graph([b"AC", b"AC", b"T"], [(2, 6), (4, 6)]), [], (0, 0, 4, 2),
              [2, 4], 2, [1, 0, 2, 0, 2, 2, 2, 1, 3, 4, 1, 0], [2, 6, 0, 4, 6, 0], [2, 2, 0, 1], [2, 2]),
    collapsed("nor made live", 2, [*graph([b"AC", b"AC", b"T"])[:2], [2, 6, 1, 4, 6, 0], 3, 5, 2], [], (0, 0, 4, 2),
              [2, 4], 2, [1, 0, 2, 0, 2, 2, 2, 1, 3, 4, 1, 0], [2, 6, 1, 4, 6, 0], [2, 2, 0, 1], [2, 2]),
    collapsed("itself read as the shared node", 2, graph([b"AC", b"AC"], [(4, 4), (4, 2)]), [], (0, 3, 4, 2),
              [2, 4], 2, [1, 0, 2, 0, 2, 2, 2, 1], [4, 4, 0, 4, 2, 0, 2, 2, 0], [2, 2, 0, 1], [2, 2]),
    collapsed("itself reversed: shared to flip shared", 2, graph([b"AC", b"AC"], [(4, 5)]), [], (0, 3, 4, 2),
              [2, 4], 2, [1, 0, 2, 0, 2, 2, 2, 1], [4, 5, 0, 2, 3, 0], [2, 2, 0, 1], [2, 2]),
    collapsed("a reversed member is split forward at length minus p", 2, graph([b"ACG", b"GGT"]), [], JUST, [2, 5], 2,
              [1, 0, 2, 0, 2, 3, 1, 0, 3, 2, 1, 0, 4, 4, 2, 1], [2, 6, 0, 4, 8, 0, 2, 5, 0],
              [1, 3, 0, 2, 2, 3, 2, 2], [2, 2, 6, 1, 4, 1, 3, 2]),
    collapsed("a reversed member first", 7, graph([b"ACG", b"GGT"]), [], JUST, [5, 2], 2,
              [1, 0, 2, 1, 2, 3, 1, 0, 3, 4, 2, 0, 4, 2, 1, 0], [4, 6, 0, 2, 8, 0, 7, 8, 0],
              [2, 3, 0, 2, 1, 3, 2, 2], [4, 1, 6, 2, 7, 2, 8, 1]),
    collapsed("links on the right move, with their marks", 2, [*graph([b"ACG", b"ACT", b"T"])[:2], [2, 6, 0, 2, 4, 1], 3, 7, 2],
              [], JUST, [2, 4], 2, [1, 0, 2, 0, 2, 3, 2, 1, 3, 6, 1, 0, 4, 2, 1, 0, 5, 5, 1, 0],
              [8, 6, 0, 8, 4, 1, 2, 8, 0, 4, 10, 0, 2, 10, 0], [1, 3, 0, 2, 2, 3, 2, 2], [2, 2, 8, 1, 2, 2, 10, 1]),
    collapsed("a loop v to v becomes fresh to v", 2, graph([b"ACG", b"ACT"], [(2, 2), (2, 4)]), [], JUST, [2, 4], 2,
              [1, 0, 2, 0, 2, 3, 2, 1, 3, 2, 1, 0, 4, 5, 1, 0], [6, 2, 0, 6, 4, 0, 2, 6, 0, 4, 8, 0, 2, 8, 0],
              [1, 3, 0, 2, 2, 3, 2, 2], [2, 2, 6, 1, 2, 2, 8, 1]),
    collapsed("v to flip v becomes fresh to flip fresh", 2, graph([b"ACG", b"ACT"], [(2, 3)]), [], JUST, [2, 4], 2,
              [1, 0, 2, 0, 2, 3, 2, 1, 3, 2, 1, 0, 4, 5, 1, 0], [6, 7, 0, 2, 6, 0, 4, 8, 0, 2, 8, 0],
              [1, 3, 0, 2, 2, 3, 2, 2], [2, 2, 6, 1, 2, 2, 8, 1]),
    collapsed("the largest id as the fresh one", TOPS[0], TOP, [], (4, 6, 8, 8), TOPS, 1,
              [MAX_ID - 2, 0, 1, 0, MAX_ID - 1, 2, 1, 1, MAX_ID, 1, 1, 0], [TOPS[0], 2 * MAX_ID, 0],
              [MAX_ID - 2, 2, 0, 2, MAX_ID - 1, 1, 2, 1], [TOPS[0], 1, 2 * MAX_ID, 1, TOPS[0], 1]),
    refused("one above it", 11, OVER, members=TOPS, p=1),
    refused("11 comes before 12 and 7", 11, OVER, [(7, 1, [(14, 1)])], members=TOPS, p=1, free=(0, 0, 0, 0)),
    refused("10 comes before 12", 10, APART, [(7, 1, [(14, 1)])]),
    refused("9 comes before 10", 9, APART, p=3),
    refused("8 comes before 9", 8, APART, members=[4], p=0),
    refused("a key of the list twice", 5, C8, [(9, 4, [(18, 4)])] * 2),
    refused("a key that the collapse would give again", 5, C8, [(3, 3, [(18, 3)])]),
    refused("a step whose own rule stands in the list", 12, C8, [(2, 2, [(18, 2)])]),
    collapsed("under another length it is no rule of its own", 4, C8, [(2, 1, [(18, 1)])], JUST, [4, 6], 2, C8_NODES, C8_LINKS,
              [2, 1, 0, 1, 2, 3, 1, 2, 3, 3, 3, 2], [18, 1, 4, 2, 8, 1, 4, 2, 10, 1]),
    refused("12 in the list itself", 12, C8, [(7, 1, [(14, 1)])]),
    refused("5 of the longer list comes before 12", 5, C8, [(7, 1, [(14, 1)]), (3, 3, [(18, 3)])]),
    refused("5 of the longer list comes before 7", 5, C8, [(3, 3, [(18, 3)])], free=(0, 0, 0, 0)),
    refused("12 comes before 7", 12, C8, [(2, 2, [(18, 2)])], free=(0, 0, 0, 0)),
    refused("an event without steps", 13, C8, [(9, 4, [])]),
    refused("a step of id 0", 13, C8, [(9, 4, [(1, 4)])]),
    refused("a rule count past the array", 13, C8, [[9, 4, 0, 1], [18, 4], 4, 1]),
    refused("a letter that is none", 13, graph([b"A", b"ACG", b"ACU"])),
    refused("an id twice", 5, [[1, 0, 1, 0, 1, 0, 1, 0], list(b"A"), [], 2, 1, 0]),
    refused("13 of the list comes before 5 of the graph", 13, [[1, 0, 1, 0, 1, 0, 1, 0], list(b"A"), [], 2, 1, 0], [(9, 4, [])]),
    refused("5 of the list comes before 8", 5, C8, [(9, 4, [(18, 4)])] * 2, members=[]),
    refused("as much as can be lent, and no members", 8, [[], [], [], 0, 0, 0], members=[], p=0, free=(16384,) * 4),
]

# 1 before 2 ACT, 3 ACG and 4 A: first all three at A, then CT and CG at C
ROUNDS = graph([b"A", b"ACT", b"ACG", b"A"], [(2, 4), (2, 6), (2, 8)])
FIRST = [[1, 0, 1, 0, 2, 1, 1, 0, 3, 4, 1, 1, 4, 7, 1, 1, 5, 2, 2, 0, 6, 5, 2, 0],
         [2, 4, 0, 2, 6, 0, 2, 8, 0, 4, 10, 0, 6, 12, 0, 4, 12, 0],
         [2, 3, 0, 2, 3, 3, 2, 2, 4, 1, 4, 1], [4, 1, 10, 2, 4, 1, 12, 2, 4, 1]]
SECOND = [FIRST[0][:16] + [5, 2, 1, 0, 6, 5, 1, 1, 7, 3, 1, 0, 8, 6, 1, 0],
          FIRST[1] + [10, 14, 0, 12, 16, 0, 10, 16, 0],
          FIRST[2] + [5, 2, 5, 2, 6, 2, 7, 2], FIRST[3] + [10, 1, 14, 1, 10, 1, 16, 1]]

# 1 before AC and AG, of which only one can be split
HIGH = [[1, 0, 1, 0, MAX_ID - 1, 1, 2, 0, MAX_ID - 2, 3, 2, 0], list(b"AACAG"), [2, 2 * MAX_ID - 2, 0, 2, 2 * MAX_ID - 4, 0], 3, 5, 2]

COLLAPSE_ALL = [
    driven("C8", 0, 1, C8, [], JUST, [], *C8_STATE),
    driven("C8 with a protected node that is no member", 0, 1, C8, [], JUST, [1], *C8_STATE),
    driven("two collapses, in just the room that they need", 0, 2, ROUNDS, [], (16, 18, 20, 18), [], *SECOND),
    driven("the second has one number too few for the nodes: the first is kept", 7, 1, ROUNDS, [], (15, 18, 20, 18), [], *FIRST),
    driven("the second has one number too few for the links", 7, 1, ROUNDS, [], (16, 17, 20, 18), [], *FIRST),
    driven("the second has one number too few for the rules", 7, 1, ROUNDS, [], (16, 18, 19, 18), [], *FIRST),
    driven("the second has one number too few for the steps", 7, 1, ROUNDS, [], (16, 18, 20, 17), [], *FIRST),
    undriven("a key that the first collapse would give again", 5, ROUNDS, [(3, 3, [(40, 2)])], free=(16, 18, 20, 18)),
    undriven("a step of the first whose own rule stands in the list", 12, ROUNDS, [(6, 2, [(40, 2)])], free=(16, 18, 20, 18)),
    undriven("nothing to collapse", 0, graph([b"A", b"ACG", b"CCT"], [(2, 4), (2, 6)])),
    undriven("no graph and no room", 0, [[], [], [], 0, 0, 0], free=(0, 0, 0, 0)),
    undriven("a protected member: its group is passed over", 0, C8, protected=[3]),
    undriven("one node twice in a group: passed over", 0, graph([b"A", b"AT"], [(2, 4), (2, 5)])),
    undriven("a group with an empty prefix: passed over", 0, graph([b"A", b"NC", b"NC"], [(2, 4), (2, 6)])),
    undriven("another left set: no group", 0, graph([b"A", b"ACG", b"ACT", b"C"], [(2, 4), (2, 6), (8, 6)])),
    undriven("no room at all", 7, C8, free=(0, 0, 0, 0)),
    undriven("the second fresh id would be above the range", 11, HIGH),
    undriven("12 in the list, and nothing to collapse", 12, graph([b"A"]), [(7, 1, [(14, 1)])]),
    undriven("12 comes before 7", 12, C8, [(7, 1, [(14, 1)])], free=(0, 0, 0, 0)),
    undriven("a protected id twice", 5, C8, protected=[1, 1]),
    undriven("a protected id that names no node", 6, C8, protected=[1, 4]),
    undriven("a protected id of 0", 6, C8, protected=[0]),
    undriven("a marked node is declared", 0, graph([b"A"], marked=(1,)), protected=[1]),
    undriven("5 comes before 6", 5, C8, protected=[4, 4]),
    undriven("6 comes before 12", 6, C8, [(7, 1, [(14, 1)])], protected=[4]),
    undriven("13 comes before 5", 13, C8, [(9, 4, [])], protected=[1, 1]),
    undriven("a key of the list twice", 5, C8, [(9, 4, [(18, 4)])] * 2),
    undriven("4,096 nodes, all protected", 0, graph([b"A"] * 4096), protected=list(range(1, 4097)), free=(0, 9, 8, 8)),
]

CASES = COLLAPSE + COLLAPSE_ALL
