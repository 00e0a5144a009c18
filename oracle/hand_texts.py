"""Hand-worked cases of the operations on text, as hand_cases.py has them for the operations on a graph.

Texts are written with spaces for tabs, one string for each line.
"""
from hand_cases import graph
from hand_collapses import C8, C8_LINKS, C8_NODES
from hand_walks import C8_TABLE, MARKED, MAX_ID, NONE, TWICE, listed


def gfa(*rows):
    return b"".join(row.encode("latin-1").replace(b" ", b"\t") + b"\n" for row in rows)


def padded(values, lent):
    return list(values) + lent[len(values):]


def read(why, number, text, nodes=(), letters=b"", links=(), room=(8, 4, 6)):
    """What is lent is all 9 before: what a reading does not write stays, a refusal leaves zeros."""
    lent = [[9] * size for size in room]
    after = [[0] * size for size in room] if number else [padded(*pair) for pair in zip((nodes, letters, links), lent)]
    counts = [0] * 3 if number else [len(nodes) // 4, len(letters), len(links) // 3]
    return why, "read_gfa", [list(text), *lent], [number, *counts, list(text), *after]


def refused(why, number, *rows, room=(8, 4, 6)):
    return read(why, number, gfa(*rows), room=room)


ONE = [1, 0, 1, 0]  # S 1 A
S = "S 1 A"


def taken(why, *rows, links=(), room=(8, 4, 6)):
    """A text whose only segment is S."""
    return read(why, 0, gfa(*rows), ONE, b"A", links, room)


READ = [
    read("no text", 0, b""),
    read("no text and no room", 0, b"", room=(0, 0, 0)),
    taken("a segment; past the counts the store stays as it is", S),
    read("the last newline may be missing", 0, b"S\t1\tA", ONE, b"A"),
    read("newlines alone", 0, b"\n\n\n"),
    taken("other lines are passed over", "", "H VN:Z:1.1", "# S", "C 1", "s 1", "SS 1", "Sx", " S", "X\xff", S),
    taken("byte 13 in a line that is passed over", "S\r", "H\r", "\r", S),
    taken("tags are ignored", "S 1 A LN:i:1 x", "L 1 + 1 + 0M x", "P x 1+ * x", "W a 0 s 0 1 >1 x", links=[2, 2, 0]),
    taken("an empty tag", "S 1 A "),
    read("the ten letters", 0, gfa("S 1 ACGTNacgtn"), [1, 0, 10, 0], b"ACGTNacgtn", room=(4, 10, 0)),
    read("segments stand in file order", 0, gfa("S 2 CG", S), [2, 0, 2, 0, 1, 2, 1, 0], b"CGA"),
    taken("links and paths may come before their segments", "L 1 + 1 + 0M", "P x 1+ *", "W a 0 s 0 1 >1", S, links=[2, 2, 0]),
    read("a link is stored in its written form", 0, gfa(S, "S 2 C", "L 2 - 1 - 0M", "L 2 + 1 - *"),
         [1, 0, 1, 0, 2, 1, 1, 0], b"AC", [2, 4, 0, 2, 5, 0]),
    read("both forward from the larger id is written so", 0, gfa(S, "S 2 C", "L 2 + 1 + 0M", "L 2 - 1 + 0M"),
         [1, 0, 1, 0, 2, 1, 1, 0], b"AC", [4, 2, 0, 3, 4, 0]),
    taken("a link given twice, once from its other end, is stored once", S, "L 1 + 1 + 0M", "L 1 - 1 - *", links=[2, 2, 0], room=(4, 1, 3)),
    taken("its two hairpins", S, "L 1 + 1 - 0M", "L 1 - 1 + 0M", links=[2, 3, 0, 3, 2, 0]),
    taken("paths and walks are not stored", S, "P x 1+,1- *", "W a 0 s 0 1 >1<1", room=(4, 1, 0)),
    taken("names and overlaps of any bytes", S, "P \xff 1+ \xff", "W \xff \x00 x y z >1"),
    taken("two paths of one name", S, "P x 1+ *", "P x 1- *"),
    read("the largest id", 0, gfa(f"S {MAX_ID} A", f"L {MAX_ID} - {MAX_ID} + 0M", f"P x {MAX_ID}- *", f"W a 0 s 0 1 <{MAX_ID}"),
         [MAX_ID, 0, 1, 0], b"A", [2 * MAX_ID + 1, 2 * MAX_ID, 0]),
    read("131,072 bytes of text", 0, gfa("S 1 " + "A" * 131067), [1, 0, 131067, 0], b"A" * 131067, room=(4, 131072, 0)),
]

READ_1 = [
    refused("S alone", 1, "S"),
    refused("two fields", 1, "S 1"),
    refused("an empty name", 1, "S  A"),
    refused("an empty sequence", 1, "S 1 "),
    refused("byte 13 at the end", 1, "S 1 A\r"),
    refused("byte 13 in a tag", 1, "S 1 A x y\r"),
    refused("byte 13 comes before the fields", 1, "S x B\r"),
    refused("fields that are not there come before those that are", 1, "L x x"),
    refused("five fields of a link", 1, S, "L 1 + 1 +"),
    refused("a link's orientation that is no sign", 1, S, "L 1 x 1 + 0M"),
    refused("its second one", 1, S, "L 1 + 1 ++ 0M"),
    refused("an empty orientation", 1, S, "L 1  1 + 0M"),
    refused("an empty second name", 1, S, "L 1 +  + 0M"),
    refused("an empty overlap", 1, S, "L 1 + 1 + "),
    refused("byte 13 in a link", 1, S, "L 1 + 1 + 0M\r"),
    refused("three fields of a path", 1, S, "P x 1+"),
    refused("a path without a name", 1, S, "P  1+ *"),
    refused("a path without steps", 1, S, "P x  *"),
    refused("a path without overlaps", 1, S, "P x 1+ "),
    refused("byte 13 in a path", 1, S, "P x\r 1+ *"),
    refused("a step without a sign", 1, S, "P x 1 *"),
    refused("an empty step at the end", 1, S, "P x 1+, *"),
    refused("an empty step at the front", 1, S, "P x ,1+ *"),
    refused("steps that are *", 1, S, "P x * *"),
    refused("six fields of a walk", 1, S, "W a 0 s 0 1"),
    *[refused(f"a walk's field {at} is empty", 1, S, " ".join(["W", *("a0s01"[:at]), "", *("a0s01"[at + 1:]), ">1"])) for at in range(5)],
    refused("an empty walk", 1, S, "W a 0 s 0 1 "),
    refused("a walk that begins with a name", 1, S, "W a 0 s 0 1 1>1"),
    refused("a walk's sign without a name", 1, S, "W a 0 s 0 1 >"),
    refused("at its end", 1, S, "W a 0 s 0 1 >1<"),
    refused("in its middle", 1, S, "W a 0 s 0 1 >1><1"),
    refused("a walk that is *", 1, S, "W a 0 s 0 1 *"),
    refused("byte 13 behind a walk", 1, S, "W a 0 s 0 1 >1 \r"),
]

READ_234 = [
    refused("id 0", 2, "S 0 A"),
    refused("a leading zero", 2, "S 01 A"),
    refused("one above the largest id", 2, "S 4294967296 A"),
    refused("past 64 bits: 1 and 2^64", 2, "S 18446744073709551617 A"),
    refused("a letter", 2, "S x A"),
    refused("digits and a letter", 2, "S 1x A"),
    refused("a sign", 2, "S +1 A"),
    refused("a link's first name", 2, S, "L x + 1 + 0M"),
    refused("its second name", 2, S, "L 1 + 01 + 0M"),
    refused("a path's name of a step", 2, S, "P x 1+,01- *"),
    refused("a step that is its sign alone", 2, S, "P x + *"),
    refused("two signs: the last is the step's", 2, S, "P x 1+- *"),
    refused("another sign between steps", 2, S, "P x 1+;1+ *"),
    refused("a walk's name", 2, S, "W a 0 s 0 1 >1<x"),
    refused("+ and comma in a walk's name", 2, S, "W a 0 s 0 1 >1+,1"),
    refused("none of the ten letters", 3, "S 1 AB"),
    refused("a sequence that is not given", 3, "S 1 *"),
    refused("U", 3, "S 1 u"),
    refused("byte 0", 3, "S 1 A\0"),
    refused("an overlap that is another", 4, S, "L 1 + 1 + 1M"),
    refused("two zeros", 4, S, "L 1 + 1 + 00M"),
    refused("0m", 4, S, "L 1 + 1 + 0m"),
    refused("two stars", 4, S, "L 1 + 1 + **"),
    refused("left to right: 2 of a segment before 3", 2, "S 0 B"),
    refused("2 of a link before 1", 2, "L 0 x 1 + 0M"),
    refused("1 of a link before 2", 1, "L 1 x 0 + 0M"),
    refused("2 of its second end before 4", 2, "L 1 + 0 + 1M"),
    refused("1 before 4", 1, "L 1 + 1 x 1M"),
    refused("a path's name before its steps", 1, "P  0+ *"),
    refused("a path's steps before its overlaps", 2, "P x 0+ "),
    refused("sign before name", 1, "P x 0x *"),
    refused("step by step", 2, "P x 0+,1x *"),
    refused("and the sign of the second", 1, "P x 1+,0x *"),
    refused("a walk's fields before its walk", 1, "W  0 s 0 1 >0"),
    refused("step by step: 2 of the first", 2, "W a 0 s 0 1 >x>"),
    refused("the first line that is refused", 3, "S 1 B", "S"),
    refused("the first line that is refused", 1, "S", "S 1 B"),
]

READ_567 = [
    refused("a segment twice", 5, S, "S 1 A"),
    refused("with other letters, and another between", 5, S, "S 2 C", "S 1 G"),
    refused("5 comes before 7", 5, S, "S 1 A", room=(4, 1, 0)),
    refused("7 of an earlier line comes before it", 7, S, "S 2 C", "S 1 A", room=(4, 4, 0)),
    refused("3 comes before 5", 3, S, "S 1 B"),
    refused("5 comes before 1 of a later line", 5, S, S, "S"),
    refused("5 comes before 6 of an earlier line", 5, "L 7 + 7 + 0M", S, S),
    refused("7 of a segment comes before 6 of an earlier line", 7, "L 7 + 7 + 0M", S, room=(3, 4, 0)),
    refused("1 of a later line comes before 6", 1, "L 7 + 7 + 0M", "P"),
    refused("a link's first end is no segment", 6, S, "L 2 + 1 + 0M"),
    refused("its second end", 6, S, "L 1 + 2 + 0M"),
    refused("a path's step", 6, S, "P x 1+,2- *"),
    refused("a walk's step", 6, S, "W a 0 s 0 1 >1>2"),
    refused("6 comes before 7", 6, S, "L 1 + 2 + 0M", room=(4, 1, 0)),
    refused("7 of an earlier link comes before it", 7, S, "L 1 + 1 + 0M", "P x 2+ *", room=(4, 1, 0)),
    refused("6 of an earlier path comes first", 6, S, "P x 2+ *", "L 1 + 1 + 0M", room=(4, 1, 0)),
    taken("just the room that it takes", S, "L 1 + 1 + 0M", links=[2, 2, 0], room=(4, 1, 3)),
    refused("a node record one number short", 7, S, "L 1 + 1 + 0M", room=(3, 1, 3)),
    refused("no room for its letter", 7, S, "L 1 + 1 + 0M", room=(4, 0, 3)),
    refused("a link record one number short", 7, S, "L 1 + 1 + 0M", room=(4, 1, 2)),
    refused("no room for the second node", 7, S, "S 2 C", room=(7, 4, 0)),
    refused("no room for the second letter", 7, S, "S 2 C", room=(8, 1, 0)),
    refused("no room for the second link", 7, S, "L 1 + 1 + 0M", "L 1 + 1 - 0M", room=(8, 4, 5)),
]


def header(why, text, fallback, part):
    return why, "parse_header", [list(text), list(fallback)], [list(part)]


VN = b"H\tVN:Z:1.1"
HEADERS = [
    header("the first line", b"H\tVN:Z:1.0\nS\t1\tA\n", VN, b"H\tVN:Z:1.0"),
    header("a later line", b"S\t1\tA\nH\tx\n", VN, b"H\tx"),
    header("the first of two", b"Hx\nHy\n", VN, b"Hx"),
    header("H alone", b"\nH\n", VN, b"H"),
    header("the first byte is H", b"Hello\n", VN, b"Hello"),
    header("the last newline is missing", b"#\nH\tx", VN, b"H\tx"),
    header("h is none", b"h\tx\n\tH\n H\n", VN, VN),
    header("H inside a line", b"SH\n", VN, VN),
    header("no text", b"", VN, VN),
    header("no text and no fallback", b"", b"", b""),
    header("the whole fallback, whatever it is", b"S\n", b"x\nH\n", b"x\nH\n"),
    header("byte 13 stays", b"H\r\n", VN, b"H\r"),
    header("bytes that are not UTF-8 pass through", b"H\xff\xfe\x00\n", VN, b"H\xff\xfe\x00"),
    header("131,072 bytes", b"H" * 131072, VN, b"H" * 131072),
]


def written(op, why, number, asked, text, room):
    """The arrays before the room stay as they were given."""
    said = b"" if number else bytes(text)
    given = [item for item in asked if isinstance(item, list)]
    return why, op, [*asked, room], [number, len(said), *given, padded(said, room)]


def fitting(op, asked, text):
    """In just the room that it needs, with room to spare, and one byte short."""
    return [written(op, "in just the room that it needs", 0, asked, text, [9] * len(text)),
            written(op, "room to spare stays as it is", 0, asked, text, [9] * (len(text) + 2)),
            written(op, "one byte short", 7, asked, text, [9] * (len(text) - 1))]


def printed(why, number, g, *rows, room=None):
    text = gfa(*rows)
    return written("print_active_subgraph", why, number, g, text, [9] * len(text) if room is None else room)


NEW = [C8_NODES, C8[1], C8_LINKS, 5, 7, 5]  # 1 A, 2 AC, 3 AC marked, 4 G, 5 T
C8_TEXT = gfa("S 1 A", "S 2 AC", "S 4 G", "S 5 T", "L 1 + 2 + 0M", "L 2 + 4 + 0M", "L 2 + 5 + 0M")
LATE = [[MAX_ID, 0, 2, 0, 7, 1, 2, 0], list(b"aNc"), [], 2, 3, 0]  # two nodes that share a letter, the larger id first
# every orientation of 1 and 2, in no order
SIDES = [(4, 2), (2, 5), (3, 2), (2, 4), (3, 4), (2, 3), (2, 2)]

SUBGRAPH = [
    *fitting("print_active_subgraph", NEW, C8_TEXT),
    printed("the empty graph", 0, graph([])),
    printed("the empty graph with room", 0, graph([]), room=[9] * 3),
    printed("segments by rising id, letters as they are", 0, LATE, "S 7 Nc", f"S {MAX_ID} aN"),
    printed("links by first id, + before -, second id, + before -", 0, graph([b"A", b"C"], SIDES), "S 1 A", "S 2 C", "L 1 + 1 + 0M",
            "L 1 + 1 - 0M", "L 1 + 2 + 0M", "L 1 + 2 - 0M", "L 1 - 1 + 0M", "L 1 - 2 + 0M", "L 2 + 1 + 0M"),
    printed("id 10 after id 9", 0, [[10, 0, 1, 0, 9, 0, 1, 0], list(b"A"), [20, 18, 0, 18, 20, 0], 2, 1, 2], "S 9 A", "S 10 A",
            "L 9 + 10 + 0M", "L 10 + 9 + 0M"),
    printed("a marked link is not written", 0, MARKED, "S 1 AcN", "S 2 GT", "S 3 C", "L 2 + 3 - 0M"),
    printed("nor is a link with a marked end", 0, graph([b"A", b"C"], [(2, 4), (2, 2)], (2,)), "S 1 A", "L 1 + 1 + 0M"),
    printed("nothing lives", 0, graph([b"A"], [(2, 2)], (1,))),
    printed("5", 5, TWICE, room=[9] * 9),
    printed("5 comes before 7", 5, TWICE),
    printed("13 comes before 7", 13, graph([b"B"])),
    printed("a link to a node that is not there", 13, graph([b"A"], [(2, 4)]), room=[9] * 99),
]


def tabled(why, number, g, table, *rows, room=None):
    text = gfa("original_node transformed_walk bp_length", *rows)
    table = listed(table) if not (table and isinstance(table[0], list)) else table
    return written("print_transformations", why, number, [*g, *table], text, [9] * len(text) if room is None else room)


A1 = graph([b"A"])
TABLE = [
    *fitting("print_transformations", [*C8, *listed(C8_TABLE)],
             gfa("original_node transformed_walk bp_length", "2 >2>4 3", "3 >2>5 3")),
    tabled("the heading alone", 0, graph([]), []),
    tabled("one byte short of the heading", 7, graph([]), [], room=[9] * 40),
    tabled("no rule: the node itself", 0, C8, []),
    tabled("a walk that is just itself forward", 0, A1, [(1, 1, [(2, 1)])]),
    tabled("whatever length is recorded", 0, A1, [(1, 1, [(2, 7)])]),
    tabled("itself reversed is printed", 0, A1, [(1, 1, [(3, 1)])], "1 <1 1"),
    tabled("itself twice", 0, A1, [(1, 1, [(2, 1), (2, 1)])], "1 >1>1 1"),
    tabled("a rule without steps", 0, A1, [(1, 1, [])], "1  1"),
    tabled("a rule under another length is not its rule", 0, A1, [(1, 2, [(4, 1)])]),
    tabled("two rules of one id: the one under its length", 0, A1, [(1, 2, [(4, 1)]), (1, 1, [(6, 1)])], "1 >3 1"),
    tabled("a rule of no old node", 0, A1, [(2, 1, [(4, 1)])]),
    tabled("once and not again", 0, graph([b"A", b"C"]), [(1, 1, [(4, 1)]), (2, 1, [(6, 1)])], "1 >2 1", "2 >3 1"),
    tabled("by rising id, the node's own length", 0, LATE, [(MAX_ID, 2, [(2 * MAX_ID + 1, 9)]), (7, 2, [(14, 1), (17, 1)])],
           "7 >7<8 2", f"{MAX_ID} <{MAX_ID} 2"),
    tabled("a marked node in the old graph", 13, graph([b"A"], marked=(1,)), []),
    tabled("a marked link in the old graph", 13, MARKED, []),
    tabled("a table that is not well formed", 13, A1, [[1, 1, 0, 1], [], 1, 0]),
    tabled("an id twice", 5, TWICE, []),
    tabled("a key twice", 5, A1, [(1, 1, []), (1, 1, [])]),
    tabled("13 of the table comes before 5 of the graph", 13, TWICE, [[0, 1, 0, 0], [], 1, 0]),
    tabled("5 comes before 7", 5, TWICE, [], room=[]),
]


def pathed(why, number, rows, *lines, g=C8, table=C8_TABLE, room=None):
    given, text = rows if isinstance(rows, bytes) else gfa(*rows), gfa(*lines)
    table = listed(table) if not (table and isinstance(table[0], list)) else table
    asked = [list(given), *g, *table]
    return written("parse_and_transform_paths", why, number, asked, text, [9] * len(text) if room is None else room)


C8_GFA = ["H VN:Z:1.1", "S 1 A", "S 2 ACG", "S 3 ACT", "L 1 + 2 + 0M", "L 1 + 3 + 0M", "P x 1+,3+ *"]
PATHS = [
    *fitting("parse_and_transform_paths", [list(gfa(*C8_GFA)), *C8, *listed(C8_TABLE)], gfa("P x 1+,2+,5+ *")),
    pathed("a reversed step", 0, ["P x 3-,1- *"], "P x 5-,2-,1- *"),
    pathed("a walk is kept as a walk", 0, ["W a 0 s 0 1 >1<3"], "W a 0 s 0 1 >1<5<2"),
    pathed("P and W in file order", 0, ["W b 0 s 0 1 >1", "P y 1+ *", "W a 0 s 0 1 <1", "P x 1- *"],
           "W b 0 s 0 1 >1", "P y 1+ *", "W a 0 s 0 1 <1", "P x 1- *"),
    pathed("tags go, and overlaps become *", 0, ["P x 1+,1- 0M,7M XX:i:1", "W a 0 s 0 1 >1 XX:i:1 "],
           "P x 1+,1- *", "W a 0 s 0 1 >1"),
    pathed("the last newline may be missing", 0, b"P\tx\t1+\t*", "P x 1+ *"),
    pathed("no text, no room", 0, b""),
    pathed("other lines are not looked at", 0, ["S", "L x", "Px", "WW a 0 s 0 1 >1", "H", "", "S\r", "P x 1+ *"], "P x 1+ *"),
    pathed("names pass through as bytes", 0, ["P \xff$ 1+ *", "W \xfe \x00 # * - >1"], "P \xff$ 1+ *", "W \xfe \x00 # * - >1"),
    pathed("names that the Rust would mix up", 0, ["W a#b c s 0 1 >1", "W a b#c s 0 1 <1"], "W a#b c s 0 1 >1", "W a b#c s 0 1 <1"),
    pathed("no rules: as it was", 0, ["P x 1+,3+ *"], "P x 1+,3+ *", table=[]),
    pathed("a step that becomes itself reversed", 0, ["P x 1+,1- *", "W a 0 s 0 1 >1<1"], "P x 1-,1+ *", "W a 0 s 0 1 <1>1",
           table=[(1, 1, [(3, 1)])]),
    pathed("a step that becomes nothing", 0, ["P x 1+,3+ *", "P y 3+,1- *", "P z 3+ *", "W a 0 s 0 1 >3"],
           "P x 1+ *", "P y 1- *", "P z  *", "W a 0 s 0 1 ", table=[(3, 3, [])]),
    pathed("a name of ten digits", 0, [f"P x {MAX_ID}- *", f"W a 0 s 0 1 <{MAX_ID}"], f"P x {MAX_ID}- *", f"W a 0 s 0 1 <{MAX_ID}",
           g=LATE, table=[]),
    pathed("too few fields", 1, ["P x 1+"], room=[9] * 9),
    pathed("byte 13", 1, ["P x 1+ *\r"], room=[9] * 9),
    pathed("byte 13 behind a walk", 1, ["W a 0 s 0 1 >1 \r"], room=[9] * 9),
    pathed("an empty name", 1, ["W a  s 0 1 >1"], room=[9] * 9),
    pathed("sign before name", 1, ["P x 0x *"], room=[9] * 9),
    pathed("a name with a leading zero", 2, ["P x 01+ *"], room=[9] * 9),
    pathed("a walk's name", 2, ["W a 0 s 0 1 >1<x"], room=[9] * 9),
    pathed("the first line that is refused", 2, ["P x 0+ *", "P"], room=[9] * 9),
    pathed("a step that is no node of the graph, though a segment of the text", 6, ["S 9 A", "P x 1+,9+ *"], room=[9] * 99),
    pathed("a step of a walk", 6, ["W a 0 s 0 1 >9"], room=[9] * 99),
    pathed("1 of a later line comes before 6", 1, ["P x 9+ *", "P"], room=[9] * 99),
    pathed("2 of a later line comes before 6", 2, ["P x 9+ *", "P x 0+ *"], room=[9] * 99),
    pathed("6 comes before 7", 6, ["P x 1+ *", "P x 9+ *"], room=[]),
    pathed("1 comes before 7", 1, ["P x 1+ *", "P"], room=[]),
    pathed("a marked node in the old graph", 13, ["P"], g=graph([b"A"], marked=(1,)), table=[]),
    pathed("13 of the table comes before 5 of the graph", 13, ["P"], g=TWICE, table=[[0, 1, 0, 0], [], 1, 0]),
    pathed("a key twice", 5, ["P"], table=[(1, 1, []), (1, 1, [])]),
    pathed("5 comes before 1", 5, ["P"], g=TWICE, table=NONE),
]

CASES = READ + READ_1 + READ_234 + READ_567 + HEADERS + SUBGRAPH + TABLE + PATHS

# Lines that are no case, and what is said of them.
NO_CASES = [
    ("read_gfa 131073 65*131073 0*3", "bad letters"),
    ("read_gfa 1 256 0*3", "bad letters"),
    ("read_gfa 0 65537 0*65537 0*2", "bad room"),
    ("read_gfa 0*2 131073 0*131073 0", "bad letters"),
    ("read_gfa 0*2 1 256 0", "bad letters"),
    ("read_gfa 0*3 65537 0*65537", "bad room"),
    ("read_gfa 0*3", "bad numbers"),
    ("parse_header 0 131073 65*131073", "bad letters"),
    ("parse_header 0", "bad numbers"),
    ("print_active_subgraph 0*6 65537 0*65537", "bad room"),
    ("print_transformations 0*10 1 256", "bad letters"),
    ("print_transformations 0*12", "bad end"),
    ("parse_and_transform_paths 0*11 65537 0*65537", "bad room"),
]
