"""Hand-worked cases of check_transform, as hand_cases.py has them for the operations on a graph."""
from hand_cases import A, graph
from hand_collapses import C8, C8_LINKS, C8_NODES
from hand_walks import C8_TABLE, MARKED, TWICE, listed

HERE = (0, 0)


def checked(why, number, places, old, new, table=(), protected=()):
    table = listed(table) if not (table and isinstance(table[0], list)) else table
    protected = list(protected)
    return why, "check_transform", [*old, *new, *table, protected], [number, *places, *old[:3], *new[:3], *table[:2], protected]


NEW = [C8_NODES, C8[1], C8_LINKS, 5, 7, 5]  # 1 A, 2 AC, 3 AC marked, 4 G, 5 T
WRITTEN = [[1, 0, 1, 0, 2, 1, 2, 0, 4, 3, 1, 0, 5, 4, 1, 0], list(b"AACGT"), [2, 4, 0, 4, 8, 0, 4, 10, 0], 4, 5, 3]
C12_OLD = graph([b"A", b"ACG", b"ACT"], [(2, 4), (2, 6), (4, 7)])

WORKED = [
    checked("C8", 0, HERE, C8, NEW, C8_TABLE),
    checked("C8 as it is written: node 3 is not there at all", 0, HERE, C8, WRITTEN, C8_TABLE),
    checked("C9", 25, (1, 0), C8, NEW, [C8_TABLE[0], (3, 3, [(4, 2), (8, 1)])]),
    checked("C10", 22, HERE, C8, NEW, [(2, 3, [(4, 1), (8, 2)]), C8_TABLE[1]]),
    checked("C11", 26, (3, 0), C8, NEW, C8_TABLE[:1]),
    checked("C12", 27, (2, 0), C12_OLD, NEW, C8_TABLE),
    checked("C15", 28, (1, 0), C8, NEW, C8_TABLE, [2, 3]),
    checked("nothing at all", 0, HERE, graph([]), graph([])),
    checked("the graph itself and no rules", 0, HERE, C8, C8),
]

# old 1 is AC; new 1 is A, 2 is C
CUT = graph([b"A", b"C"], [(2, 4)])
BOTH = [(2, 1), (4, 1)]
TRUE = (1, 2, BOTH)


def cut(why, number, places, table, new=CUT, old=b"AC"):
    return checked(why, number, places, graph([old]), new, table)


RULES = [
    cut("a node cut in two", 0, HERE, [TRUE]),
    cut("a rule without steps", 20, HERE, [(1, 2, [])]),
    cut("a later rule without steps, of length 0", 20, (1, 0), [TRUE, (7, 0, [])]),
    cut("a step's node is absent", 21, (0, 1), [(1, 2, [(2, 1), (6, 1)])]),
    cut("a step's node is marked", 21, (0, 1), [TRUE], graph([b"A", b"C"], [(2, 4)], (2,))),
    checked("absent, under a key that is no old node", 21, HERE, graph([]), graph([]), [(1, 1, [(2, 1)])]),
    cut("a recorded length above the node's own", 22, (0, 1), [(1, 3, [(2, 1), (4, 2)])]),
    cut("a recorded length of 0", 22, HERE, [(1, 1, [(2, 0), (4, 1)])]),
    cut("a recorded length past any node's", 22, HERE, [(1, 2, [(2, 2**64 - 1), (4, 1)])]),
    cut("no link between the steps", 23, (0, 1), [TRUE], graph([b"A", b"C"])),
    cut("a marked link is not live", 23, (0, 1), [TRUE], [*CUT[:2], [2, 4, 1], *CUT[3:]]),
    cut("the link leads the other way", 23, (0, 1), [(1, 2, [(4, 1), (2, 1)])]),
    checked("no link to the third step", 23, (0, 2), graph([]), graph([b"A", b"C", b"G"], [(2, 4)]), [(9, 3, BOTH + [(6, 1)])]),
    cut("the key's length one above the sum", 24, HERE, [(1, 3, BOTH)]),
    cut("the key's length one below it", 24, HERE, [(1, 1, BOTH)]),
    cut("another letter", 25, HERE, [TRUE], old=b"AG"),
    cut("letter case aside", 0, HERE, [TRUE], old=b"aC"),
    cut("N is N alone", 25, HERE, [TRUE], old=b"NC"),
    cut("the link from its other end, which spells GT", 25, HERE, [(1, 2, [(5, 1), (3, 1)])]),
    cut("which is GT", 0, HERE, [(1, 2, [(5, 1), (3, 1)])], old=b"GT"),
    cut("a key with another length: no spelling to hold", 0, HERE, [TRUE, (1, 1, [(4, 1)])]),
    cut("a key that is no old node", 0, HERE, [TRUE, (7, 1, [(4, 1)])]),
    cut("rule by rule: 25 of the first before 20 of the second", 25, HERE, [TRUE, (7, 0, [])], old=b"AG"),
    cut("21 comes before 22", 21, (0, 1), [(1, 2, [(2, 1), (6, 9)])]),
    cut("22 comes before 23", 22, (0, 1), [(1, 3, [(2, 1), (4, 2)])], graph([b"A", b"C"])),
    cut("23 of a step comes before 21 of the next", 23, (0, 1), [(1, 3, BOTH + [(6, 1)])], graph([b"A", b"C"])),
    cut("23 comes before 24", 23, (0, 1), [(1, 3, BOTH)], graph([b"A", b"C"])),
    cut("24 comes before 25", 24, HERE, [(1, 2, [(2, 1)])]),
]

ONE = graph([b"A"])
LATE = [[3, 0, 1, 0, 2, 1, 1, 0], list(b"AC"), [], 2, 2, 0]  # id 3 stands before id 2

NODES = [
    checked("an old node that is not there", 26, (1, 0), ONE, graph([])),
    checked("marked", 26, (1, 0), ONE, graph([b"A"], marked=(1,))),
    checked("with another letter", 26, (1, 0), ONE, graph([b"C"])),
    checked("with one letter more", 26, (1, 0), ONE, graph([b"AA"])),
    checked("letter case aside", 0, HERE, ONE, graph([b"a"])),
    checked("by rising id", 26, (2, 0), LATE, graph([])),
    checked("a rule under another length is not its rule", 26, (1, 0), graph([b"AC"]), CUT, [(1, 1, [(2, 1)])]),
    checked("26 comes before 27", 26, (1, 0), graph([b"A", b"C"], [(2, 4)]), graph([])),
]

PAIR = graph([b"AC", b"G"], [(2, 4)])
TAIL = [(1, 2, [(2, 1), (6, 1)])]  # 1 is cut into 1 and 3


def tail(links):
    """New: 1 A, 2 G, 3 C, and these links beside the one from 1 to 3."""
    links = [2, 6, 0] + links
    return [[1, 0, 1, 0, 2, 2, 1, 0, 3, 1, 1, 0], list(b"ACG"), links, 3, 3, len(links) // 3]


def mesh(*links):
    return graph([b"A", b"C"], links)


LINKS = [
    checked("a link between nodes without rules", 27, HERE, graph([b"A"], [(2, 2)]), ONE),
    checked("marked in the new graph", 27, HERE, graph([b"A"], [(2, 2)]), [*ONE[:2], [2, 2, 1], 1, 1, 1]),
    checked("from the last step of an image", 0, HERE, PAIR, tail([6, 4, 0]), TAIL),
    checked("not from its first", 27, HERE, PAIR, tail([2, 4, 0]), TAIL),
    checked("reversed: the image's other end", 0, HERE, graph([b"AC", b"G"], [(3, 4)]), tail([3, 4, 0]), TAIL),
    checked("not its last step", 27, HERE, graph([b"AC", b"G"], [(3, 4)]), tail([4, 7, 0]), TAIL),
    checked("the place is that in written order, not in the array", 27, (2, 0), mesh((4, 2), (2, 4), (2, 2)), mesh((2, 2), (2, 4))),
    checked("the first of two in written order", 27, (1, 0), mesh((4, 2), (2, 4), (2, 2)), mesh((2, 2))),
    checked("forward before reverse, at both ends", 27, (1, 0), mesh((3, 4), (2, 5), (2, 4)), mesh((2, 4), (3, 4))),
]

TWO_A = graph([b"A", b"A"])

PROTECTED = [
    checked("one protected node", 0, HERE, C8, NEW, C8_TABLE, [2]),
    checked("the later in the list brings the repeat", 28, (1, 0), C8, NEW, C8_TABLE, [3, 2]),
    checked("at its place in the list", 28, (2, 0), C8, NEW, C8_TABLE, [3, 1, 2]),
    checked("twice in one walk", 28, HERE, graph([b"AA"]), graph([b"A"], [(2, 2)]), [(1, 2, [(2, 1)] * 2)], [1]),
    checked("either way round", 28, HERE, graph([b"AT"]), graph([b"A"], [(2, 3)]), [(1, 2, [(2, 1), (3, 1)])], [1]),
    checked("which is no fault unless it is protected", 0, HERE, graph([b"AT"]), graph([b"A"], [(2, 3)]), [(1, 2, [(2, 1), (3, 1)])]),
    checked("a protected node without a rule has no walk", 0, HERE, TWO_A, TWO_A, [(2, 1, [(2, 1)])], [1, 2]),
    checked("27 comes before 28", 27, (2, 0), C12_OLD, NEW, C8_TABLE, [2, 3]),
]

MANY = [[n for i in range(1, 4098) for n in (i, 0, 1, 0)], [A], [], 4097, 1, 0]

INPUT = [
    checked("a marked node in the old graph", 13, HERE, graph([b"A"], marked=(1,)), ONE),
    checked("a marked link in the old graph", 13, HERE, MARKED, MARKED),
    checked("no letter, in the new graph", 13, HERE, ONE, graph([b"U"])),
    checked("a rule past the steps in use", 13, HERE, ONE, ONE, [[1, 1, 0, 2], [2, 1, 2, 1], 1, 1]),
    checked("a step of id 0", 13, HERE, ONE, ONE, [[1, 1, 0, 1], [1, 1], 1, 1]),
    checked("13 of the table comes before 5 of the old graph", 13, HERE, TWICE, ONE, [[0, 1, 0, 1], [2, 1], 1, 1]),
    checked("an id twice in the old graph", 5, HERE, TWICE, ONE),
    checked("in the new graph", 5, HERE, ONE, TWICE),
    checked("a key twice", 5, HERE, ONE, ONE, [(1, 1, [(2, 1)])] * 2),
    checked("a protected id twice", 5, HERE, ONE, ONE, protected=[1, 1]),
    checked("5 comes before 6", 5, HERE, ONE, TWICE, protected=[9]),
    checked("a protected id that names a new node only", 6, HERE, C8, NEW, C8_TABLE, [4]),
    checked("a protected id of 0", 6, HERE, ONE, ONE, protected=[0]),
    checked("6 comes before 20", 6, HERE, ONE, ONE, [(1, 1, [])], [9]),
    checked("the checker takes more than 4,096 protected ids", 0, HERE, MANY, MANY, protected=range(1, 4098)),
]

CASES = WORKED + RULES + NODES + LINKS + PROTECTED + INPUT
