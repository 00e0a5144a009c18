/* refine.c: a whole run on a GFA file, through gfaffix.h.
 *
 *   refine [-t] IN.gfa OUT.gfa TABLE.txt [ID..]
 *
 * Reads IN, folds what can be folded (the nodes with the ids named are left alone), and writes the folded graph with its
 * paths, and the table that says how each old node reads in it. Prints how many foldings were made and the checker's
 * verdict; with -t also the processor time of each part, in seconds. Ends with 0 where the verdict is 0, with 1 where it
 * is another, with 2 where a part was refused or a file cannot be read or written.
 */
#include "gfaffix.h"

#include <stdio.h>
#include <stdlib.h>
#include <string.h>
#include <time.h>

#define NODES_LEN ((size_t)GFAFFIX_MAX_NODES * GFAFFIX_NODE)
#define LINKS_LEN ((size_t)GFAFFIX_MAX_LINKS * GFAFFIX_LINK)
#define RULES_LEN ((size_t)GFAFFIX_MAX_RULES * GFAFFIX_RULE)
#define STEPS_LEN ((size_t)GFAFFIX_MAX_STEPS * GFAFFIX_STEP)
#define FIRST_ROOM ((size_t)64 << 20)
#define LAST_ROOM ((size_t)4 << 30)

static const char FALLBACK[] = "H\tVN:Z:1.1";

typedef struct {
    uint8_t *bytes;
    size_t len;
} buffer;

typedef struct {
    uint64_t *nodes;
    uint8_t *letters;
    uint64_t *links;
    gfaffix_counts counts;
} graph;

typedef struct {
    uint64_t *rules;
    uint64_t *steps;
    gfaffix_used used;
} rule_list;

static int timed;

static void stop(const char *what, uint64_t number)
{
    fprintf(stderr, "refine: %s: %llu\n", what, (unsigned long long)number);
    exit(2);
}

static void *room(size_t count, size_t size)
{
    void *p = calloc(count ? count : 1, size);
    if (!p) {
        fprintf(stderr, "refine: no memory\n");
        exit(2);
    }
    return p;
}

static clock_t report(const char *part, clock_t since)
{
    clock_t now = clock();
    if (timed) {
        printf("%-7s %.3f\n", part, (double)(now - since) / CLOCKS_PER_SEC);
        fflush(stdout);
    }
    return now;
}

static buffer read_file(const char *name)
{
    buffer b = {NULL, 0};
    size_t size = 1 << 16;
    FILE *f = fopen(name, "rb");
    if (!f) {
        perror(name);
        exit(2);
    }
    b.bytes = room(size, 1);
    for (size_t got; (got = fread(b.bytes + b.len, 1, size - b.len, f)) > 0;) {
        b.len += got;
        if (b.len == size && !(b.bytes = realloc(b.bytes, size *= 2)))
            stop("no memory for", size);
    }
    if (ferror(f)) {
        perror(name);
        exit(2);
    }
    fclose(f);
    return b;
}

static graph new_graph(void)
{
    graph g;
    g.nodes = room(NODES_LEN, sizeof *g.nodes);
    g.letters = room(GFAFFIX_MAX_LETTERS, 1);
    g.links = room(LINKS_LEN, sizeof *g.links);
    memset(&g.counts, 0, sizeof g.counts);
    return g;
}

static rule_list new_rules(void)
{
    rule_list t;
    t.rules = room(RULES_LEN, sizeof *t.rules);
    t.steps = room(STEPS_LEN, sizeof *t.steps);
    memset(&t.used, 0, sizeof t.used);
    return t;
}

static graph read_graph(buffer text)
{
    graph g = new_graph();
    gfaffix_read r = gfaffix_read_gfa(text.bytes, text.len, g.nodes, NODES_LEN, g.letters, GFAFFIX_MAX_LETTERS,
                                      g.links, LINKS_LEN);
    if (r.number)
        stop("the graph is refused", r.number);
    g.counts = r.counts;
    return g;
}

/* The driver works in the graph itself, so the old one is kept apart. Letters never move: both have the same. */
static graph copy(graph old)
{
    graph g = old;
    g.nodes = room(NODES_LEN, sizeof *g.nodes);
    g.links = room(LINKS_LEN, sizeof *g.links);
    memcpy(g.nodes, old.nodes, old.counts.nodes * GFAFFIX_NODE * sizeof *g.nodes);
    memcpy(g.links, old.links, old.counts.links * GFAFFIX_LINK * sizeof *g.links);
    return g;
}

/* What was made before a refusal is a true result, and is written. */
static uint64_t drive(graph *g, rule_list *events, const uint64_t *ids, size_t count)
{
    gfaffix_driven r = gfaffix_collapse_all(g->nodes, NODES_LEN, g->letters, GFAFFIX_MAX_LETTERS, g->links, LINKS_LEN,
                                            g->counts, events->rules, RULES_LEN, events->steps, STEPS_LEN,
                                            events->used, ids, count);
    if (r.number && r.made == 0)
        stop("the driver is refused", r.number);
    if (r.number)
        fprintf(stderr, "refine: the driver stopped on its way: %llu\n", (unsigned long long)r.number);
    g->counts = r.counts;
    events->used = r.used;
    return r.made;
}

static rule_list expand(rule_list events)
{
    rule_list t = new_rules();
    gfaffix_expanded r = gfaffix_expand(events.rules, RULES_LEN, events.steps, STEPS_LEN, events.used, t.rules,
                                        RULES_LEN, t.steps, STEPS_LEN);
    if (r.number)
        stop("the table is refused", r.number);
    t.used = r.used;
    return t;
}

static gfaffix_verdict check(graph old, graph new, rule_list t, const uint64_t *ids, size_t count)
{
    return gfaffix_check_transform(old.nodes, NODES_LEN, old.letters, GFAFFIX_MAX_LETTERS, old.links, LINKS_LEN,
                                   old.counts, new.nodes, NODES_LEN, new.letters, GFAFFIX_MAX_LETTERS, new.links,
                                   LINKS_LEN, new.counts, t.rules, RULES_LEN, t.steps, STEPS_LEN, t.used, ids, count);
}

enum part { GRAPH, PATHS, TABLE };

static gfaffix_written print_into(enum part what, buffer text, graph old, graph new, rule_list t, buffer out)
{
    if (what == GRAPH)
        return gfaffix_print_active_subgraph(new.nodes, NODES_LEN, new.letters, GFAFFIX_MAX_LETTERS, new.links,
                                             LINKS_LEN, new.counts, out.bytes, out.len);
    if (what == PATHS)
        return gfaffix_parse_and_transform_paths(text.bytes, text.len, old.nodes, NODES_LEN, old.letters,
                                                 GFAFFIX_MAX_LETTERS, old.links, LINKS_LEN, old.counts, t.rules,
                                                 RULES_LEN, t.steps, STEPS_LEN, t.used, out.bytes, out.len);
    return gfaffix_print_transformations(old.nodes, NODES_LEN, old.letters, GFAFFIX_MAX_LETTERS, old.links, LINKS_LEN,
                                         old.counts, t.rules, RULES_LEN, t.steps, STEPS_LEN, t.used, out.bytes,
                                         out.len);
}

/* With 7 not a byte was written: more room, and again. */
static buffer print(enum part what, buffer text, graph old, graph new, rule_list t)
{
    for (size_t size = FIRST_ROOM; size <= LAST_ROOM; size *= 2) {
        buffer out = {room(size, 1), size};
        gfaffix_written r = print_into(what, text, old, new, t, out);
        out.len = r.length;
        if (r.number == GFAFFIX_DONE)
            return out;
        free(out.bytes);
        if (r.number != GFAFFIX_ROOM)
            stop("writing is refused", r.number);
    }
    stop("there is no room to write", GFAFFIX_ROOM);
    return text;
}

static buffer header(buffer text)
{
    gfaffix_header_part h = gfaffix_parse_header(text.bytes, text.len, (const uint8_t *)FALLBACK, sizeof FALLBACK - 1);
    buffer out = {room(h.length + 1, 1), h.length + 1};
    memcpy(out.bytes, (h.source ? (const uint8_t *)FALLBACK : text.bytes) + h.place, h.length);
    out.bytes[h.length] = '\n';
    return out;
}

static void write_file(const char *name, const buffer *parts, size_t count)
{
    FILE *f = fopen(name, "wb");
    size_t missing = 0;
    for (size_t i = 0; f && i < count; i++)
        missing += parts[i].len - fwrite(parts[i].bytes, 1, parts[i].len, f);
    if (!f || fclose(f) || missing) {
        perror(name);
        exit(2);
    }
}

/* Header, graph and paths into one file, the table into another. */
static void write_all(const char *out, const char *name, buffer text, graph old, graph new, rule_list t)
{
    clock_t at = clock();
    buffer table = print(TABLE, text, old, new, t);
    at = report("table", at);
    buffer paths = print(PATHS, text, old, new, t);
    at = report("paths", at);
    const buffer parts[] = {header(text), print(GRAPH, text, old, new, t), paths};
    report("graph", at);
    write_file(out, parts, sizeof parts / sizeof *parts);
    write_file(name, &table, 1);
}

int main(int argc, char **argv)
{
    timed = argc > 1 && !strcmp(argv[1], "-t");
    argv += timed;
    argc -= timed;
    if (argc < 4) {
        fprintf(stderr, "usage: refine [-t] IN.gfa OUT.gfa TABLE.txt [ID..]\n");
        return 2;
    }
    size_t count = (size_t)argc - 4;
    uint64_t *ids = room(count, sizeof *ids);
    for (size_t i = 0; i < count; i++)
        ids[i] = strtoull(argv[4 + i], NULL, 10);
    buffer text = read_file(argv[1]);
    clock_t at = clock();
    graph old = read_graph(text), new = copy(old);
    at = report("read", at);
    rule_list events = new_rules();
    uint64_t made = drive(&new, &events, ids, count);
    at = report("driver", at);
    rule_list t = expand(events);
    at = report("expand", at);
    gfaffix_verdict v = check(old, new, t, ids, count);
    report("check", at);
    write_all(argv[2], argv[3], text, old, new, t);
    printf("collapses %llu\n", (unsigned long long)made);
    printf("verdict %llu %llu %llu\n", (unsigned long long)v.number, (unsigned long long)v.first,
           (unsigned long long)v.second);
    return v.number ? 1 : 0;
}
