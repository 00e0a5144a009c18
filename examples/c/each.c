/* each.c: every function of gfaffix.h, called on document 01's worked cases C8, C9, C14 and C15. Prints each answer, field
 * by field, and the arrays after the call; the last slot of an array is not lent, and must stay as it is.
 */
#include "gfaffix.h"

#include <stdio.h>
#include <string.h>

#define LEN(a) (sizeof(a) / sizeof *(a))
#define LENT(a) (a), (LEN(a) - 1)
#define SLOT 99

typedef unsigned long long number;

static const char C8[] = "H\tVN:Z:1.1\nS\t1\tA\nS\t2\tACG\nS\t3\tACT\nL\t1\t+\t2\t+\t0M\nL\t1\t+\t3\t+\t0M\nP\tx\t1+,3+\t*\n";
static const char FALLBACK[] = "H\tVN:Z:1.1";

/* C8's graph as it is read, and as it is folded; its table. */
static const uint64_t old_nodes[] = {1, 0, 1, 0, 2, 1, 3, 0, 3, 4, 3, 0, SLOT};
static const uint64_t old_links[] = {2, 4, 0, 2, 6, 0, SLOT};
static const uint8_t letters[] = "AACGACT";
static const gfaffix_counts old_counts = {3, 7, 2};
static const uint64_t new_nodes[] = {1, 0, 1, 0, 2, 1, 2, 0, 3, 4, 2, 1, 4, 3, 1, 0, 5, 6, 1, 0, SLOT};
static const uint64_t new_links[] = {2, 4, 0, 2, 6, 0, 4, 8, 0, 6, 10, 0, 4, 10, 0, SLOT};
static const gfaffix_counts new_counts = {5, 7, 5};
static const uint64_t rules[] = {2, 3, 0, 2, 3, 3, 2, 2, SLOT};
static const uint64_t steps[] = {4, 2, 8, 1, 4, 2, 10, 1, SLOT};
static const gfaffix_used used = {2, 4};

#define OLD LENT(old_nodes), LENT(letters), LENT(old_links), old_counts
#define NEW LENT(new_nodes), LENT(letters), LENT(new_links), new_counts
#define TABLE LENT(rules), LENT(steps), used

static void numbers(const char *name, const uint64_t *a, size_t len)
{
    printf("  %s", name);
    for (size_t i = 0; i < len; i++)
        printf(" %llu", (number)a[i]);
    putchar('\n');
}

static void bytes(const char *name, const uint8_t *a, size_t len)
{
    printf("  %s ", name);
    for (size_t i = 0; i < len; i++) {
        if (a[i] == '\t')
            fputs("\\t", stdout);
        else if (a[i] == '\n')
            fputs("\\n", stdout);
        else
            putchar(a[i] ? a[i] : '0');
    }
    putchar('\n');
}

static void written(const char *name, gfaffix_written r, const uint8_t *out, size_t len)
{
    printf("%s %llu %zu\n", name, (number)r.number, r.length);
    bytes("out", out, len);
}

static void read_text(const char *text)
{
    uint64_t nodes[14], links[8];
    uint8_t store[9];
    for (size_t i = 0; i < LEN(nodes); i++)
        nodes[i] = SLOT;
    for (size_t i = 0; i < LEN(links); i++)
        links[i] = SLOT;
    memset(store, '.', sizeof store);
    gfaffix_read r = gfaffix_read_gfa((const uint8_t *)text, strlen(text), LENT(nodes), LENT(store), LENT(links));
    printf("read_gfa %llu %zu %zu %zu\n", (number)r.number, r.counts.nodes, r.counts.letters, r.counts.links);
    numbers("nodes", nodes, LEN(nodes));
    bytes("letters", store, LEN(store));
    numbers("links", links, LEN(links));
}

static void header(const char *text)
{
    gfaffix_header_part h =
        gfaffix_parse_header((const uint8_t *)text, strlen(text), (const uint8_t *)FALLBACK, strlen(FALLBACK));
    printf("parse_header %llu %zu %zu\n", (number)h.source, h.place, h.length);
}

static void ask(void)
{
    const uint64_t group[] = {4, 6, SLOT};
    uint8_t out[] = "....";
    gfaffix_letter_total t = gfaffix_live_letters(OLD);
    printf("live_letters %llu %llu\n", (number)t.number, (number)t.total);
    gfaffix_shared_prefix p = gfaffix_get_shared_prefix(OLD, LENT(group), LENT(out));
    printf("get_shared_prefix %llu %zu\n", (number)p.number, p.length);
    bytes("out", out, LEN(out));
}

static void branch(uint64_t v)
{
    uint64_t members[] = {SLOT, SLOT, SLOT, SLOT}, ends[] = {SLOT, SLOT, SLOT};
    gfaffix_branch b = gfaffix_enumerate_branch(OLD, v, LENT(members), LENT(ends));
    printf("enumerate_branch %llu %zu\n", (number)b.number, b.groups);
    numbers("members", members, LEN(members));
    numbers("ends", ends, LEN(ends));
}

/* One collapse of 2+ and 3+ at p; where p is 0 the driver instead. */
static void fold(uint64_t p)
{
    const uint64_t group[] = {4, 6, SLOT}, ids[] = {1, SLOT};
    const gfaffix_used none = {0, 0};
    uint64_t nodes[21] = {0}, links[16] = {0}, events[9] = {0}, walks[9] = {0};
    memcpy(nodes, old_nodes, sizeof old_nodes - sizeof *old_nodes);
    memcpy(links, old_links, sizeof old_links - sizeof *old_links);
    nodes[20] = links[15] = events[8] = walks[8] = SLOT;
    if (p) {
        gfaffix_collapsed r = gfaffix_collapse(LENT(nodes), LENT(letters), LENT(links), old_counts, LENT(events),
                                               LENT(walks), none, LENT(group), p);
        printf("collapse %llu %llu %zu %zu %zu %zu %zu\n", (number)r.number, (number)r.shared, r.counts.nodes,
               r.counts.letters, r.counts.links, r.used.rules, r.used.steps);
    } else {
        gfaffix_driven r = gfaffix_collapse_all(LENT(nodes), LENT(letters), LENT(links), old_counts, LENT(events),
                                                LENT(walks), none, LENT(ids));
        printf("collapse_all %llu %llu %zu %zu %zu %zu %zu\n", (number)r.number, (number)r.made, r.counts.nodes,
               r.counts.letters, r.counts.links, r.used.rules, r.used.steps);
    }
    numbers("nodes", nodes, LEN(nodes));
    numbers("links", links, LEN(links));
    numbers("rules", events, LEN(events));
    numbers("steps", walks, LEN(walks));
}

/* C14. */
static void expand(void)
{
    const uint64_t events[] = {2, 3, 0, 2, 2, 2, 2, 2, SLOT}, walks[] = {4, 2, 8, 1, 4, 1, 12, 1, SLOT};
    uint64_t out_rules[10] = {0}, out_steps[12] = {0};
    out_rules[9] = out_steps[11] = SLOT;
    gfaffix_expanded r = gfaffix_expand(LENT(events), LENT(walks), used, LENT(out_rules), LENT(out_steps));
    printf("expand %llu %zu %zu\n", (number)r.number, r.used.rules, r.used.steps);
    numbers("rules", out_rules, LEN(out_rules));
    numbers("steps", out_steps, LEN(out_steps));
}

static void walk(uint64_t last)
{
    const uint64_t old[] = {2, last, SLOT};
    uint64_t new[] = {SLOT, SLOT, SLOT, SLOT, SLOT};
    uint8_t out[] = "......";
    gfaffix_rewritten w = gfaffix_transform_walk(OLD, TABLE, LENT(old), LENT(new));
    printf("transform_walk %llu %zu\n", (number)w.number, w.length);
    numbers("walk", new, LEN(new));
    gfaffix_spelling s = gfaffix_spell_walk(NEW, new, w.length, LENT(out));
    printf("spell_walk %llu %zu %zu\n", (number)s.number, s.place, s.length);
    bytes("out", out, LEN(out));
    s = gfaffix_spell_walk(NEW, LENT(old), LENT(out));
    printf("spell_walk %llu %zu %zu\n", (number)s.number, s.place, s.length);
}

/* The last step of rule 3 as given: 10 is C8's, 8 is C9's. The first ids are protected. */
static void check(uint64_t last, size_t protected_count)
{
    const uint64_t ids[] = {2, 3, SLOT};
    uint64_t other[LEN(steps)];
    memcpy(other, steps, sizeof steps);
    other[6] = last;
    gfaffix_verdict v = gfaffix_check_transform(OLD, NEW, LENT(rules), LENT(other), used, ids, protected_count);
    printf("check_transform %llu %llu %llu\n", (number)v.number, (number)v.first, (number)v.second);
}

/* The walk of C8's rule 3 as records, the last one's length as given. */
static void check_walk(uint64_t length)
{
    const gfaffix_step walk[] = {{2, GFAFFIX_FORWARD, 2}, {5, GFAFFIX_FORWARD, length}, {SLOT, SLOT, SLOT}};
    gfaffix_verdict v = gfaffix_check_steps(NEW, LENT(walk));
    printf("check_steps %llu %llu %llu\n", (number)v.number, (number)v.first, (number)v.second);
}

/* With this room for each text. */
static void print(size_t graph, size_t table, size_t paths)
{
    uint8_t out[128];
    memset(out, '.', sizeof out);
    written("print_active_subgraph", gfaffix_print_active_subgraph(NEW, out, graph), out, graph + 1);
    memset(out, '.', sizeof out);
    written("print_transformations", gfaffix_print_transformations(OLD, TABLE, out, table), out, table + 1);
    memset(out, '.', sizeof out);
    written("parse_and_transform_paths",
            gfaffix_parse_and_transform_paths((const uint8_t *)C8, strlen(C8), OLD, TABLE, out, paths), out, paths + 1);
}

int main(void)
{
    read_text(C8);
    read_text("S\t1\tA\nS\t1\tC\n");
    header(C8);
    header("S\t1\tA\nH\tx\nH\ty");
    header("S\t1\tA\n");
    header("");
    ask();
    branch(2);
    branch(8);
    fold(2);
    fold(3);
    fold(0);
    expand();
    walk(6);
    walk(8);
    check(10, 0);
    check(8, 0);
    check(10, 2);
    check_walk(1);
    check_walk(2);
    print(64, 59, 15);
    print(63, 58, 14);
    return 0;
}
