"""GFA texts, sound and damaged."""
from lines import handle_text

NAMES = [b"x", b"y", b"p,q", b"\xc3\xa9"] * 5 + [b"a#b#c#s:0-1$gfaffix"] * 4 + [b"\xff\xfe"]
SAMPLES, HAPLOTYPES = [b"a", b"a#b"] * 20 + [b"a\xff"], [b"c", b"b#c", b"0"]
SEQUENCES, STARTS, ENDS = [b"s", b"s#t"], [b"0", b"*"], [b"1", b"*"]
OTHERS = [b"", b"# a word", b"C\t1\t+\t2\t+\t0\t0M", b"s\t1\tA", b"SS\t1\tA", b"X", b"S\r",
          b"J\t1\t+\t2\t+\t*"] * 3 + [b"Wx\ta", b"WW\ta\tb\tc\t0\t1\t>1"]
HEADERS = [b"H\tVN:Z:1.1", b"H\tVN:Z:1.0", b"H", b"Hello", b"H\r", b"h\tVN:Z:1.1", b"\tH"] * 3 + [b"H\t\xff"]
PIECES = [b"\t", b"\n", b"\r", b"+", b"-", b">", b"<", b",", b"*", b"0", b"1", b"4294967295",
          b"4294967296", b"N", b"n", b"x", b"S", b"W", b"\xff", b"0M", b"1M", b"\t\t", b"+,1"]


def segment_line(r, name, letters):
    tag = r.choice([b"", b"", b"", b"\tLN:i:3", b"\t"])
    return b"S\t%d\t%s%s" % (name, letters, tag)


def link_line(r, u, v):
    if r.random() < 0.3:
        u, v = v ^ 1, u ^ 1
    sign = lambda h: b"-" if h & 1 else b"+"
    ends = (u >> 1, sign(u), v >> 1, sign(v), r.choice([b"0M", b"*"]), r.choice([b"", b"", b"\tMQ:i:1"]))
    return b"L\t%d\t%s\t%d\t%s\t%s%s" % ends


def path_line(r, steps):
    text = ",".join(handle_text(h) for h in steps).encode()
    return b"P\t%s\t%s\t%s" % (r.choice(NAMES), text, r.choice([b"*", b"*", b"0M", b"*\tXX:i:1"]))


def walk_line(r, steps):
    text = b"".join(b"%s%d" % (b"<" if h & 1 else b">", h >> 1) for h in steps)
    name = [r.choice(pool) for pool in (SAMPLES, HAPLOTYPES, SEQUENCES, STARTS, ENDS)]
    if r.random() < 0.03:
        name[r.randrange(5)] = b""
    tag = b"\t\r" if r.random() < 0.02 else r.choice([b"", b"", b"\tXX:i:1"])
    return b"\t".join([b"W", *name, text]) + tag


def sound_lines(r, graph):
    lines = [segment_line(r, name, letters) for name, letters in graph.nodes.items()]
    lines += [link_line(r, u, v) for u, v in graph.links]
    lines += [link_line(r, u, v) for u, v in graph.links if r.random() < 0.1]
    ends = graph.handles()
    for _ in range(r.choice([0, 1, 2, 4]) if ends else 0):
        steps = [r.choice(ends) for _ in range(r.randint(1, 4))]
        lines.append(r.choice([path_line, walk_line])(r, steps))
    for _ in range(r.choice([0, 0, 1])):
        lines.insert(r.randint(0, len(lines)), r.choice(OTHERS))
    for _ in range(r.choice([0, 1, 1, 2])):
        lines.insert(r.randint(0, len(lines)) if r.random() < 0.3 else 0, r.choice(HEADERS))
    if r.random() < 0.15:
        r.shuffle(lines)
    return lines


def damage_field(r, lines):
    """One field of one line is dropped, emptied, or becomes another."""
    at = r.randrange(len(lines))
    fields = lines[at].split(b"\t")
    i = r.randrange(len(fields))
    fields[i:i + 1] = r.choice([[], [b""], [r.choice(PIECES)], [fields[i] + r.choice(PIECES)],
                                [r.choice(PIECES) + fields[i]], [b"0" + fields[i]]])
    lines[at] = b"\t".join(fields)


def damage_bytes(r, text):
    at = r.randint(0, len(text))
    return text[:at] + r.choice([b"", r.choice(PIECES)]) + text[at + r.choice([0, 1, 1]):]


def damage_lines(r, lines):
    """A line goes, comes twice, or is one that reading refuses."""
    at = r.randrange(len(lines))
    segments = [line for line in lines if line[:2] == b"S\t"] or lines
    extra = [lines[at], *[r.choice(segments)] * 3, b"L\t77\t+\t1\t+\t0M", b"S\t5\t*"]
    extra += [b"P\tz\t" + rest for rest in (b"77+\t*", b"*\t*", b"1+,\t*", b"+\t*", b"x+\t")]
    extra += [b"W\ta\t0\ts\t0\t1\t" + walk for walk in (b">77", b"*", b">1>>1", b">x>", b">1+,1")]
    if r.random() < 0.3:
        del lines[at]
    else:
        lines.insert(r.randint(0, len(lines)), r.choice(extra))


def any_text(r, graph, damage=0.5):
    lines = sound_lines(r, graph)
    rounds = r.choice([1, 1, 2]) if r.random() < damage else 0
    for _ in range(rounds):
        if lines:
            r.choice([damage_field, damage_lines])(r, lines)
    text = b"\n".join(lines) + r.choice([b"\n", b"\n", b"\n", b""])
    return damage_bytes(r, text) if rounds and r.random() < 0.4 else text


def any_header_text(r):
    lines = [r.choice(HEADERS + OTHERS + [b"S\t1\tA"]) for _ in range(r.randint(0, 4))]
    return b"\n".join(lines) + r.choice([b"\n", b""])
