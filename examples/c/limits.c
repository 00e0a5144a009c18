/* limits.c: document 01's library limits, at each one and one past it, through gfaffix.h. Prints a line for each: what is
 * tried, how many there are, and the number that is answered. What is handed in past a limit is 13, what would be stored
 * past it 7. The arrays have room beyond every limit, so that only the limits can refuse. Takes a few minutes: whether a
 * node, a link or a key is there twice is found by looking at every pair.
 */
#include "gfaffix.h"

#include <stdio.h>
#include <stdlib.h>
#include <string.h>

#define MORE 16
#define NODES ((size_t)GFAFFIX_MAX_NODES + MORE)
#define LETTERS ((size_t)GFAFFIX_MAX_LETTERS + MORE)
#define LINKS ((size_t)GFAFFIX_MAX_LINKS + MORE)
#define RULES ((size_t)GFAFFIX_MAX_RULES + MORE)
#define STEPS ((size_t)GFAFFIX_MAX_STEPS + MORE)
#define TEXT ((size_t)32 << 20)
#define SIDE 363 /* so many nodes have room for 131,769 links between them */

static uint64_t *nodes, *links, *rules, *steps, *out_rules, *out_steps;
static uint8_t *letters, *text;

static void *room(size_t count, size_t size)
{
    void *p = calloc(count, size);
    if (!p)
        exit(2);
    return p;
}

static void said(const char *what, size_t count, uint64_t number)
{
    printf("%s %zu: %llu\n", what, count, (unsigned long long)number);
    fflush(stdout);
}

/* Node 1 is AC, every other is A: 1+ and 2+ can be folded at 1. */
static gfaffix_counts graph(size_t node_count, size_t link_count)
{
    gfaffix_counts c = {node_count, 2, link_count};
    memcpy(letters, "AC", 2);
    for (size_t i = 0; i < node_count; i++) {
        nodes[4 * i] = i + 1;
        nodes[4 * i + 1] = 0;
        nodes[4 * i + 2] = i ? 1 : 2;
        nodes[4 * i + 3] = 0;
    }
    /* from 1 and 2 and into them there is none, so that their left sets are the same */
    for (size_t i = 0; i < link_count; i++) {
        links[3 * i] = GFAFFIX_PACK(3 + i / SIDE, GFAFFIX_FORWARD);
        links[3 * i + 1] = GFAFFIX_PACK(3 + i % SIDE, GFAFFIX_FORWARD);
        links[3 * i + 2] = 0;
    }
    return c;
}

/* A list of rules of one step each, the last rule with all steps that are left; no step has a rule. */
static gfaffix_used list(size_t rule_count, size_t step_count)
{
    gfaffix_used u = {rule_count, step_count};
    for (size_t i = 0; i < rule_count; i++) {
        rules[4 * i] = 1000000 + i;
        rules[4 * i + 1] = 1;
        rules[4 * i + 2] = i;
        rules[4 * i + 3] = i + 1 < rule_count ? 1 : step_count - i;
    }
    for (size_t i = 0; i < step_count; i++) {
        steps[2 * i] = GFAFFIX_PACK(9, GFAFFIX_REVERSE);
        steps[2 * i + 1] = 1;
    }
    return u;
}

/* 255 steps under a rule of 1,024 steps, then that rule: 262,144 steps once expanded; and `more` rules of one step. */
static gfaffix_used growing(size_t more)
{
    gfaffix_used u = list(2 + more, 255 + 1024 + more);
    for (size_t i = 0; i < 255; i++)
        steps[2 * i] = GFAFFIX_PACK(rules[4], GFAFFIX_FORWARD);
    rules[3] = rules[6] = 255;
    rules[7] = 1024;
    rules[10] = 255 + 1024;
    rules[11] = more;
    return u;
}

static void handed_in(const char *what, size_t count, gfaffix_counts c)
{
    said(what, count, gfaffix_live_letters(nodes, 4 * NODES, letters, LETTERS, links, 3 * LINKS, c).number);
}

static void folded(const char *what, size_t count, gfaffix_counts c, gfaffix_used u)
{
    const uint64_t members[] = {GFAFFIX_PACK(1, GFAFFIX_FORWARD), GFAFFIX_PACK(2, GFAFFIX_FORWARD)};
    said(what, count,
         gfaffix_collapse(nodes, 4 * NODES, letters, LETTERS, links, 3 * LINKS, c, rules, 4 * RULES, steps, 2 * STEPS,
                          u, members, 2, 1).number);
}

static void expanded(const char *what, size_t count, gfaffix_used u)
{
    said(what, count,
         gfaffix_expand(rules, 4 * RULES, steps, 2 * STEPS, u, out_rules, 4 * RULES, out_steps, 2 * STEPS).number);
}

static void was_read(const char *what, size_t count, size_t len)
{
    said(what, count,
         gfaffix_read_gfa(text, len, nodes, 4 * NODES, letters, LETTERS, links, 3 * LINKS).number);
}

static size_t segments(size_t count)
{
    size_t at = 0;
    for (size_t i = 1; i <= count; i++)
        at += (size_t)sprintf((char *)text + at, "S\t%zu\tA\n", i);
    return at;
}

static size_t with_links(size_t count)
{
    size_t at = segments(SIDE);
    for (size_t i = 0; i < count; i++)
        at += (size_t)sprintf((char *)text + at, "L\t%zu\t+\t%zu\t+\t0M\n", 1 + i / SIDE, 1 + i % SIDE);
    return at;
}

/* A segment of so many letters, and a second one where it has any. */
static size_t with_letters(size_t first, size_t second)
{
    size_t at = (size_t)sprintf((char *)text, "S\t1\t");
    memset(text + at, 'a', first);
    at += first;
    if (second)
        at += (size_t)sprintf((char *)text + at, "\nS\t2\t");
    memset(text + at, 'N', second);
    return at + second;
}

static void try_nodes(void)
{
    const size_t n = GFAFFIX_MAX_NODES;
    handed_in("nodes handed in", n, graph(n, 0));
    handed_in("nodes handed in", n + 1, graph(n + 1, 0));
    was_read("nodes read", n, segments(n));
    was_read("nodes read", n + 1, segments(n + 1));
    folded("nodes after a collapse", n, graph(n - 1, 0), list(0, 0));
    folded("nodes after a collapse", n + 1, graph(n, 0), list(0, 0));
}

static void try_letters(void)
{
    const size_t n = GFAFFIX_MAX_LETTERS;
    for (size_t more = 0; more < 2; more++) {
        gfaffix_counts c = graph(1, 0);
        memset(letters, 'T', n + more);
        c.letters = nodes[2] = n + more;
        handed_in("letters handed in", n + more, c);
    }
    was_read("letters read", n, with_letters(n, 0));
    was_read("letters read", n + 1, with_letters(n + 1, 0));
    was_read("letters read, in two lines", n, with_letters(n - 1, 1));
    was_read("letters read, in two lines", n + 1, with_letters(n, 1));
}

static void try_links(void)
{
    const size_t n = GFAFFIX_MAX_LINKS;
    handed_in("links handed in", n, graph(SIDE + 2, n));
    handed_in("links handed in", n + 1, graph(SIDE + 2, n + 1));
    was_read("links read", n, with_links(n));
    was_read("links read", n + 1, with_links(n + 1));
    folded("links after a collapse", n, graph(SIDE + 2, n - 1), list(0, 0));
    folded("links after a collapse", n + 1, graph(SIDE + 2, n), list(0, 0));
}

/* A collapse of 1+ and 2+ makes two rules with three steps. */
static void try_rules(void)
{
    const size_t n = GFAFFIX_MAX_RULES;
    expanded("rules handed in", n, list(n, n));
    expanded("rules handed in", n + 1, list(n + 1, n + 1));
    folded("rules after a collapse", n, graph(2, 0), list(n - 2, n - 2));
    folded("rules after a collapse", n + 1, graph(2, 0), list(n - 1, n - 1));
}

static void try_steps(void)
{
    const size_t n = GFAFFIX_MAX_STEPS;
    expanded("steps handed in", n, list(1, n));
    expanded("steps handed in", n + 1, list(1, n + 1));
    folded("steps after a collapse", n, graph(2, 0), list(1, n - 3));
    folded("steps after a collapse", n + 1, graph(2, 0), list(1, n - 2));
    expanded("steps after expansion", n, growing(0));
    expanded("steps after expansion", n + 1, growing(1));
}

/* Round and round node 3, which is linked to itself. */
static void try_records(void)
{
    const size_t n = GFAFFIX_MAX_STEPS;
    const gfaffix_counts c = graph(3, 1);
    gfaffix_step *walk = room(STEPS, sizeof *walk);
    for (size_t i = 0; i < STEPS; i++)
        walk[i] = (gfaffix_step){3, GFAFFIX_FORWARD, 1};
    for (size_t more = 0; more < 2; more++)
        said("steps as records", n + more,
             gfaffix_check_steps(nodes, 4 * NODES, letters, LETTERS, links, 3 * LINKS, c, walk, n + more).number);
    free(walk);
}

static void try_protected(void)
{
    const size_t n = GFAFFIX_MAX_PROTECTED;
    const gfaffix_used none = {0, 0};
    for (size_t i = 0; i <= n; i++)
        out_rules[i] = i + 1;
    for (size_t more = 0; more < 2; more++)
        said("protected ids, driver", n + more,
             gfaffix_collapse_all(nodes, 4 * NODES, letters, LETTERS, links, 3 * LINKS, graph(n + 1, 0), rules,
                                  4 * RULES, steps, 2 * STEPS, none, out_rules, n + more).number);
}

int main(void)
{
    nodes = room(4 * NODES, sizeof *nodes);
    letters = room(LETTERS, 1);
    links = room(3 * LINKS, sizeof *links);
    rules = room(4 * RULES, sizeof *rules);
    steps = room(2 * STEPS, sizeof *steps);
    out_rules = room(4 * RULES, sizeof *rules);
    out_steps = room(2 * STEPS, sizeof *steps);
    text = room(TEXT, 1);
    try_nodes();
    try_letters();
    try_links();
    try_rules();
    try_steps();
    try_records();
    try_protected();
    return 0;
}
