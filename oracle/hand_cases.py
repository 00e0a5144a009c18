"""Cases for replay with their answers worked out by hand from 01: every reason for each number, just inside and just
outside. Each is (what it shows, the operation, what the case holds, what its answer holds), each in its order."""

A, C, G, T, N = b"ACGTN"
TWO = [1, 0, 1, 0, 2, 1, 3, 0]  # 1 is A, 2 is ACG
TEXT = [A, A, C, G]
LINK = [2, 4, 0]  # 1+ to 2+


def case(why, number, total, nodes=TWO, text=TEXT, links=(), counts=None):
    nodes, text, links = list(nodes), list(text), list(links)
    counts = counts or (len(nodes) // 4, len(text), len(links) // 3)
    return why, "live_letters", [nodes, text, links, *counts], [number, total, nodes, text, links]


def one(why, number, total, id=1, start=0, length=1, mark=0, text=(A,)):
    return case(why, number, total, [id, start, length, mark], text)


def linked(why, number, links, nodes=TWO, total=4):
    return case(why, number, 0 if number else total, nodes, TEXT, links)


LIVE_LETTERS = [
    case("the empty graph", 0, 0, [], [], []),
    one("one node", 0, 1),
    case("two nodes and a link, every array full", 0, 4, links=LINK),
    case("room to spare: what stands past the counts is not looked at", 0, 1, [1, 0, 1, 0, 0, 9, 9, 9], [A, 7], [0, 0, 9], (1, 1, 0)),
    case("a node count just past the array", 13, 0, [1, 0, 1, 0], [A], [], (2, 1, 0)),
    case("a node record one number short", 13, 0, [1, 0, 1], [A], [], (1, 1, 0)),
    case("65,536 nodes are within the limit: the number is 5, for the id", 5, 0, [1] * 262144, [A, A]),
    case("65,537 nodes are not", 13, 0, [1] * 262148, [A, A]),
    case("a letter count just past the array", 13, 0, [1, 0, 1, 0], [A], [], (1, 2, 0)),
    case("a letter count of the whole array", 0, 1, [1, 0, 1, 0], [A, C], [], (1, 2, 0)),
    case("a link count just past the array", 13, 0, links=LINK, counts=(2, 4, 2)),
    case("a link record one number short", 13, 0, links=[2, 4], counts=(2, 4, 1)),
    case("counts past any array", 13, 0, [], [], [], (2**64 - 1, 0, 0)),
    case("counts past any array", 13, 0, [], [], [], (0, 2**64 - 1, 0)),
    case("counts past any array", 13, 0, [], [], [], (0, 0, 2**64 - 1)),
    one("id 0", 13, 0, id=0),
    one("the largest id", 0, 1, id=4294967295),
    one("one above it", 13, 0, id=4294967296),
    one("a marked node has no live letters", 0, 0, mark=1),
    one("mark 2", 13, 0, mark=2),
    one("length 0", 13, 0, length=0),
    one("a start of all letters in use, and length 0", 13, 0, start=1, length=0),
    one("letters to the last one in use", 0, 2, start=1, length=2, text=(A, C, G)),
    one("one past it", 13, 0, start=2, length=2, text=(A, C, G)),
    one("a start past any array", 13, 0, start=2**64 - 1),
    one("a length past any array", 13, 0, length=2**64 - 1),
    one("start and length whose sum leaves 64 bits", 13, 0, start=2**63, length=2**63),
    case("letters in the array but not in use", 13, 0, [1, 0, 2, 0], [A, C], [], (1, 1, 0)),
    one("the ten letters", 0, 10, length=10, text=b"ACGTNacgtn"),
    one("B is none of them", 13, 0, text=b"B"),
    one("nor is u", 13, 0, text=b"u"),
    one("nor is byte 0", 13, 0, text=(0,)),
    one("nor is byte 255", 13, 0, text=(255,)),
    one("a byte that no node has may be anything", 0, 1, text=(A, 0)),
    case("two nodes may share letters", 0, 3, [1, 0, 2, 0, 2, 1, 1, 0], [A, C]),
    linked("a link whose first end is absent", 13, [6, 4, 0]),
    linked("a link whose second end is absent", 13, [2, 6, 0]),
    linked("a link of id 0", 13, [0, 4, 0]),
    linked("both ends reversed is not the written form", 13, [5, 3, 0]),
    linked("forward to reverse from the smaller id", 0, [2, 5, 0]),
    linked("the same link from the larger id", 13, [4, 3, 0]),
    linked("reverse to forward from the smaller id", 0, [3, 4, 0]),
    linked("the same link from the larger id", 13, [5, 2, 0]),
    linked("both forward from the larger id is written so", 0, [4, 2, 0]),
    linked("v to v, v to flip v and flip v to v", 0, [2, 2, 0, 2, 3, 0, 3, 2, 0]),
    linked("flip v to flip v is v to v", 13, [3, 3, 0]),
    linked("a link stored twice", 13, LINK + LINK),
    linked("a link stored twice, once marked", 13, LINK + [2, 4, 1]),
    linked("two links", 0, LINK + [4, 2, 0]),
    linked("a marked link", 0, [2, 4, 1]),
    linked("link mark 2", 13, [2, 4, 2]),
    linked("a link with a marked end is well formed", 0, LINK, [1, 0, 1, 1, 2, 1, 3, 0], 3),
    case("an id twice", 5, 0, [1, 0, 1, 0, 1, 1, 3, 0]),
    case("an id twice, once marked", 5, 0, [1, 0, 1, 0, 1, 1, 3, 1]),
    case("an id twice and a link between them", 5, 0, [1, 0, 1, 0, 1, 1, 3, 0], links=[2, 2, 0]),
    case("13 comes before 5", 13, 0, [1, 0, 1, 0, 1, 1, 4, 0]),
]


def graph(sequences, links=(), marked=()):
    """Node i + 1 has the i-th sequence."""
    nodes, text = [], []
    for i, s in enumerate(sequences):
        nodes += [i + 1, len(text), len(s), int(i + 1 in marked)]
        text += s
    links = [n for u, v in links for n in (u, v, 0)]
    return [nodes, text, links, len(nodes) // 4, len(text), len(links) // 3]


def prefix(why, number, letters, sequences, members, room, marked=()):
    g = graph(sequences, marked=marked)
    after = list(letters) + room[len(letters):]
    return why, "get_shared_prefix", [*g, members, room], [number, len(letters), *g[:3], members, after]


def branch(why, number, groups, g, v, members, ends):
    met = [n for group in groups for n in group]
    past = [sum(map(len, groups[:i + 1])) for i in range(len(groups))]
    after = [met + members[len(met):], past + ends[len(past):]]
    return why, "enumerate_branch", [*g, v, members, ends], [number, len(groups), *g[:3], *after]


ACG = [b"ACG", b"acT"]
SHARED_PREFIX = [
    prefix("C1", 0, b"AC", ACG, [2, 4], [0] * 4),
    prefix("C1 the other way round: the letters are the first one's", 0, b"ac", ACG, [4, 2], [9] * 2),
    prefix("C2", 0, b"A", [b"ANG", b"ANG"], [2, 4], [0]),
    prefix("C3", 0, b"AC", [b"ACNT"], [2], [0] * 2),
    prefix("C4, which needs no room", 0, b"", [b"NA", b"NA"], [2, 4], []),
    prefix("a reversed member reads CGT", 0, b"CG", [b"ACG", b"CGA"], [3, 4], [0] * 3),
    prefix("reversed, case kept: t then a then c", 0, b"ta", [b"CGta", b"TAG"], [3, 4], [0] * 2),
    prefix("a member that ends is the end", 0, b"AC", [b"ACG", b"AC"], [2, 4], [0] * 3),
    prefix("no room for the second letter", 7, b"", ACG, [2, 4], [5]),
    prefix("no members", 8, b"", ACG, [], [5]),
    prefix("an absent member", 8, b"", ACG, [2, 6], [5]),
    prefix("id 0", 8, b"", ACG, [2, 0], [5]),
    prefix("an id out of range", 8, b"", ACG, [2, 2**64 - 1], [5]),
    prefix("a marked member", 8, b"", ACG, [2, 4], [5] * 4, marked=(2,)),
    prefix("a marked node that is no member", 0, b"ACG", ACG, [2], [5] * 4, marked=(2,)),
    prefix("one node twice", 8, b"", ACG, [2, 2], [5]),
    prefix("one node twice, the other way round", 8, b"", ACG, [2, 4, 3], [5]),
    prefix("8 comes before 7", 8, b"", ACG, [2, 2], []),
    prefix("13 comes before 8", 13, b"", [b"ACB"], [], []),
]

# 1 before 2+, 3-, 4+ and 5-, which all read C; 6 stands alone and is marked
C13 = graph([b"A", b"C", b"G", b"C", b"G", b"T"], [(2, 4), (2, 7), (2, 8), (2, 11)], (6,))
# from 1 to 2+ C, 3+ c, 4+ N, 5+ n and 6+ C, which 2 precedes too
KEYS = graph([b"A", b"C", b"cA", b"N", b"n", b"C"], [(2, 4), (2, 6), (2, 8), (2, 10), (2, 12), (4, 12)])
BRANCH = [
    branch("C13", 0, [[11, 7, 4, 8]], C13, 2, [0] * 5, [0] * 2),
    branch("C13 in just the room that it needs", 0, [[11, 7, 4, 8]], C13, 2, [9] * 4, [9]),
    branch("one place too few for the members", 7, [], C13, 2, [9] * 3, [9]),
    branch("one place too few for the ends", 7, [], C13, 2, [9] * 4, []),
    branch("no right neighbour", 0, [], C13, 4, [], []),
    branch("1- has none, 2- has 1-", 0, [[3]], C13, 5, [0], [0]),
    branch("letter case aside, N like the others, and the left set counts", 0, [[4, 6], [8, 10], [12]], KEYS, 2, [0] * 6, [0] * 4),
    branch("v absent", 8, [], C13, 14, [9] * 5, [9]),
    branch("v of id 0", 8, [], C13, 1, [9] * 5, [9]),
    branch("v marked", 8, [], C13, 12, [9] * 5, [9]),
    branch("v out of range", 8, [], C13, 2**64 - 1, [], []),
    branch("13 comes before 8", 13, [], graph([b"A"], [(2, 4)]), 4, [], []),
    branch("5 comes before 8", 5, [], [[1, 0, 1, 0, 1, 0, 1, 0], [A], [], 2, 1, 0], 4, [], []),
]

CASES = LIVE_LETTERS + SHARED_PREFIX + BRANCH

# Lines that are no case, and what is said of them.
NO_CASES = [
    ("no_such_operation 1 2 3", "bad operation"),
    ("live_letters 4 1 0 1", "bad numbers"),
    ("live_letters 0 0 0 0 0 0 0", "bad end"),
    ("live_letters 0 0 0 0 0 x", "bad numbers"),
    ("live_letters 0 1 256 0 0 1 0", "bad letters"),
    ("live_letters 0 0 0 0 0 18446744073709551616", "bad numbers"),
    ("spell_walk 0*6 0 1 256", "bad letters"),
    ("enumerate_branch 0*7 65537 0*65537 0", "bad room"),
    ("get_shared_prefix 0*6 0 65537 0*65536 256", "bad letters"),
    ("expand 0*4 131073 0*131073 0", "bad room"),
    ("expand 0*4 0 65537 0*65537", "bad room"),
    ("collapse 16385 0*16385 0*11", "bad room"),
    ("collapse_all 0*6 16385 0*16385 0*4", "bad room"),
    ("check_transform 0*7 131073 65*131073 0*9", "bad letters"),
]
