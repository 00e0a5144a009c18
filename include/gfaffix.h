/* gfaffix.h: the operations of GFAffix in Rattle, for C and C++.
 *
 * Link with crates/face/out/libface.a, which `rt lib` in crates/face writes (x86-64 Linux, System V calling convention).
 * Every function here is `gfaffix_NAME` in crates/face/src/NAME.rt, with the contract that the operation NAME has; what
 * each one does in full, and where its definition stands, is in docs/OPERATIONS.md. Nothing checks this file against
 * crates/face: docs/TRUST.md says what is taken on trust at this border.
 *
 * ARRAYS. Nothing is allocated or kept: the caller lends arrays, each as a pointer and the number of its elements (not
 * bytes, not records). An array may be larger than what is in use; the counts say how much of it is. Of the arrays of one
 * call none that is written may overlap another. Each pointer must point to as many elements as are said, aligned for
 * its type, and must not be null, also where the number is 0: then any other pointer will do.
 *
 *   nodes   GFAFFIX_NODE numbers each:  id, start of its letters, how many, mark
 *   text or letters                     one byte each, of ACGTNacgtn; a node's are `length` bytes from `start` on
 *   links   GFAFFIX_LINK numbers each:  from, to (oriented nodes), mark
 *   rules   GFAFFIX_RULE numbers each:  id, length (the two are the key), first step, how many steps
 *   steps   GFAFFIX_STEP numbers each:  oriented node, its recorded length
 *
 * gfaffix_check_steps alone takes steps in another form, as an array of gfaffix_step: there an element is one such struct.
 *
 * A graph is nodes, letters, links and a gfaffix_counts; an event list or a table is rules, steps and a gfaffix_used. A
 * mark is 0, or 1 for deleted. An id is 1 to GFAFFIX_MAX_ID. An oriented node is one number, id times 2 plus direction (0
 * forward, 1 reverse): GFAFFIX_PACK, GFAFFIX_ID, GFAFFIX_DIRECTION. A walk is an array of oriented nodes.
 *
 * NUMBERS. The first field of every answer but gfaffix_header_part is a number: 0 is done (or yes), others say why not.
 * Each function lists those that it can give, in the order in which they are looked for; 13 and 5 come first and speak of
 * all that was handed in. A refusal changes nothing that was lent, but for gfaffix_read_gfa and gfaffix_collapse_all, which
 * say what it leaves. Success writes from the front of the arrays that are not const; what stands behind stays.
 *
 * Nothing is asked of the caller beyond the above: whatever the arrays hold and the counts are, the answer is defined.
 *
 * STACK. Local arrays lie on the stack: gfaffix_expand takes 520 KB, gfaffix_collapse 3.1 MB, gfaffix_collapse_all 3.6 MB,
 * every other function less than 64 KB. A thread with a small stack must not call those three.
 */
#ifndef GFAFFIX_H
#define GFAFFIX_H

#include <stddef.h>
#include <stdint.h>

#ifdef __cplusplus
extern "C" {
#endif

/* Limits: what is handed in above them is 13, what would be stored above them 7. A walk, a text and room for text have
 * no limit but their arrays. */
#define GFAFFIX_MAX_ID 4294967295u
#define GFAFFIX_MAX_NODES 65536
#define GFAFFIX_MAX_LETTERS 16777216
#define GFAFFIX_MAX_LINKS 131072
#define GFAFFIX_MAX_RULES 65536
#define GFAFFIX_MAX_STEPS 262144
#define GFAFFIX_MAX_PROTECTED 4096 /* gfaffix_collapse_all alone */

/* How many numbers a record has. */
#define GFAFFIX_NODE 4
#define GFAFFIX_LINK 3
#define GFAFFIX_RULE 4
#define GFAFFIX_STEP 2

#define GFAFFIX_FORWARD 0
#define GFAFFIX_REVERSE 1
#define GFAFFIX_PACK(id, direction) ((uint64_t)(id) * 2 + (uint64_t)(direction))
#define GFAFFIX_ID(node) ((uint64_t)(node) / 2)
#define GFAFFIX_DIRECTION(node) ((uint64_t)(node) % 2)

/* The numbers. */
#define GFAFFIX_DONE 0         /* done, or yes */
#define GFAFFIX_LINE 1         /* fields, signs or a byte 13 of an S, L, P or W line */
#define GFAFFIX_NAME 2         /* a segment name that is no id in plain decimal */
#define GFAFFIX_LETTER 3       /* a letter outside the ten */
#define GFAFFIX_OVERLAP 4      /* a link's overlap that is neither 0M nor * */
#define GFAFFIX_TWICE 5        /* an id, a rule's key or a protected id given twice */
#define GFAFFIX_ABSENT 6       /* a link, a step or a protected id names no declared node */
#define GFAFFIX_ROOM 7         /* what would be stored or written exceeds the lent room or a limit */
#define GFAFFIX_MEMBERS 8      /* too few members, one absent or marked, or one node twice */
#define GFAFFIX_LENGTH 9       /* prefix length 0 or above the shared prefix */
#define GFAFFIX_LEFT 10        /* the members' left neighbours differ */
#define GFAFFIX_IDS 11         /* a split would need an id above the range */
#define GFAFFIX_ORDER 12       /* in an event list a step's own rule does not come later */
#define GFAFFIX_NOT_FORMED 13  /* a graph, a table or an event list is not well formed */
#define GFAFFIX_NO_STEPS 20    /* 20 to 28 are the checker's (gfaffix_check_steps gives 21 to 23): a rule without steps */
#define GFAFFIX_DEAD_STEP 21   /* a step's node is not live */
#define GFAFFIX_STEP_LENGTH 22 /* a step's recorded length is not the node's own */
#define GFAFFIX_GAP 23         /* no link from the step before (gfaffix_spell_walk gives it as well) */
#define GFAFFIX_SUM 24         /* the lengths do not sum to the key's */
#define GFAFFIX_SPELLING 25    /* other letters than the old node's */
#define GFAFFIX_LOST_NODE 26   /* an old node without a rule is not there with its letters */
#define GFAFFIX_LOST_LINK 27   /* an old link has no counterpart */
#define GFAFFIX_REPEAT 28      /* a new node twice in the walks of protected nodes */

/* How much of a graph's arrays is in use: records and letters, not elements. */
typedef struct {
    size_t nodes;
    size_t letters;
    size_t links;
} gfaffix_counts;

/* How much of a table's or an event list's arrays is in use, in records. */
typedef struct {
    size_t rules;
    size_t steps;
} gfaffix_used;

/* A step as gfaffix_check_steps takes it: the oriented node in two, and its recorded length. */
typedef struct {
    uint64_t id;
    uint64_t direction;
    uint64_t length;
} gfaffix_step;

typedef struct {
    uint64_t number;
    uint64_t total;
} gfaffix_letter_total;

typedef struct {
    uint64_t number;
    size_t length;
} gfaffix_shared_prefix;

typedef struct {
    uint64_t number;
    size_t groups;
} gfaffix_branch;

typedef struct {
    uint64_t number;
    size_t place;
    size_t length;
} gfaffix_spelling;

typedef struct {
    uint64_t number;
    size_t length;
} gfaffix_rewritten;

typedef struct {
    uint64_t number;
    gfaffix_used used;
} gfaffix_expanded;

typedef struct {
    uint64_t number;
    uint64_t shared;
    gfaffix_counts counts;
    gfaffix_used used;
} gfaffix_collapsed;

typedef struct {
    uint64_t number;
    uint64_t made;
    gfaffix_counts counts;
    gfaffix_used used;
} gfaffix_driven;

typedef struct {
    uint64_t number;
    uint64_t first;
    uint64_t second;
} gfaffix_verdict;

typedef struct {
    uint64_t number;
    gfaffix_counts counts;
} gfaffix_read;

typedef struct {
    uint64_t number;
    size_t length;
} gfaffix_written;

typedef struct {
    uint64_t source;
    size_t place;
    size_t length;
} gfaffix_header_part;

/* GFA text into nodes, letters and links; the counts of what was stored. 1, 2, 3, 4, 5, 7 (nodes, letters), line by line;
 * then 6, 7 (links), line by line. A refusal leaves the three arrays all zero, each to its end, and the counts zero. */
gfaffix_read gfaffix_read_gfa(const uint8_t *text, size_t text_len,
                              uint64_t *nodes, size_t nodes_len,
                              uint8_t *letters, size_t letters_len,
                              uint64_t *links, size_t links_len);

/* The header that is to be written: the first line of text whose first byte is H, without its newline, else the whole
 * fallback. source is 0 for text and 1 for fallback; place is that of its first byte there. No numbers. */
gfaffix_header_part gfaffix_parse_header(const uint8_t *text, size_t text_len,
                                         const uint8_t *fallback, size_t fallback_len);

/* The letters of all live nodes. 13, 5; then the total is 0. */
gfaffix_letter_total gfaffix_live_letters(const uint64_t *nodes, size_t nodes_len,
                                          const uint8_t *text, size_t text_len,
                                          const uint64_t *links, size_t links_len,
                                          gfaffix_counts c);

/* The letters that all members (oriented nodes) begin with, into out; how many. 13, 5, 8, 7; then the length is 0. */
gfaffix_shared_prefix gfaffix_get_shared_prefix(const uint64_t *nodes, size_t nodes_len,
                                                const uint8_t *text, size_t text_len,
                                                const uint64_t *links, size_t links_len,
                                                gfaffix_counts c,
                                                const uint64_t *members, size_t members_len,
                                                uint8_t *out, size_t out_len);

/* The groups of the oriented node v: their members one group after another into members, the end of each group, counted
 * from the first member, into ends; how many groups. 13, 5, 8, 7; then the groups are 0. */
gfaffix_branch gfaffix_enumerate_branch(const uint64_t *nodes, size_t nodes_len,
                                        const uint8_t *text, size_t text_len,
                                        const uint64_t *links, size_t links_len,
                                        gfaffix_counts c,
                                        uint64_t v,
                                        uint64_t *members, size_t members_len,
                                        uint64_t *ends, size_t ends_len);

/* Folds the first p letters of the members into one node and appends its events to rules and steps; the shared node and
 * the counts after it. 13, 5, 8, 9, 10, 11, then 5 and 12 that the longer list would give, 7; then the counts are those
 * that were given and the shared node is 0. */
gfaffix_collapsed gfaffix_collapse(uint64_t *nodes, size_t nodes_len,
                                   const uint8_t *text, size_t text_len,
                                   uint64_t *links, size_t links_len,
                                   gfaffix_counts c,
                                   uint64_t *rules, size_t rules_len,
                                   uint64_t *steps, size_t steps_len,
                                   gfaffix_used u,
                                   const uint64_t *members, size_t members_len,
                                   uint64_t p);

/* The driver: folds group after group until none is left that it must fold; how many foldings it made, and the counts
 * after them. Groups with a node whose id is protected are passed over. 13, 5, 6, 12, 7 (more than 4,096 protected ids)
 * change nothing; then the number of the first refused collapse, and what was made before it stays: the counts say how
 * much. Begun with no events only 11 and 7 stop it on its way. */
gfaffix_driven gfaffix_collapse_all(uint64_t *nodes, size_t nodes_len,
                                    const uint8_t *text, size_t text_len,
                                    uint64_t *links, size_t links_len,
                                    gfaffix_counts c,
                                    uint64_t *rules, size_t rules_len,
                                    uint64_t *steps, size_t steps_len,
                                    gfaffix_used u,
                                    const uint64_t *protected_ids, size_t protected_ids_len);

/* The table of an event list: each event's walk with its steps replaced until none has a rule; how many rules and steps
 * the table has. 13, 5, 12, 7; then both are 0. */
gfaffix_expanded gfaffix_expand(const uint64_t *rules, size_t rules_len,
                                const uint64_t *steps, size_t steps_len,
                                gfaffix_used u,
                                uint64_t *out_rules, size_t out_rules_len,
                                uint64_t *out_steps, size_t out_steps_len);

/* A walk of an old graph, rewritten by a table, into out; how many steps. 13 (also for a mark in the old graph), 5, 6, 7;
 * then the length is 0. */
gfaffix_rewritten gfaffix_transform_walk(const uint64_t *nodes, size_t nodes_len,
                                         const uint8_t *text, size_t text_len,
                                         const uint64_t *links, size_t links_len,
                                         gfaffix_counts c,
                                         const uint64_t *rules, size_t rules_len,
                                         const uint64_t *steps, size_t steps_len,
                                         gfaffix_used u,
                                         const uint64_t *walk, size_t walk_len,
                                         uint64_t *out, size_t out_len);

/* The letters of a walk, into out; how many. 13, 5, 6, 23 with the place of the later step, 7; then the length is 0, and
 * but for 23 the place too. */
gfaffix_spelling gfaffix_spell_walk(const uint64_t *nodes, size_t nodes_len,
                                    const uint8_t *text, size_t text_len,
                                    const uint64_t *links, size_t links_len,
                                    gfaffix_counts c,
                                    const uint64_t *walk, size_t walk_len,
                                    uint8_t *out, size_t out_len);

/* Whether the new graph (counts d) and the table stand for the old graph (counts c). 13, 5, 6, then the first fault of 20
 * to 28 with its two places (rule and step; for 26 an id, for 27 a link's position in written order, for 28 a position in
 * the protected ids), else 0. Writes nothing. */
gfaffix_verdict gfaffix_check_transform(const uint64_t *old_nodes, size_t old_nodes_len,
                                        const uint8_t *old_text, size_t old_text_len,
                                        const uint64_t *old_links, size_t old_links_len,
                                        gfaffix_counts c,
                                        const uint64_t *nodes, size_t nodes_len,
                                        const uint8_t *text, size_t text_len,
                                        const uint64_t *links, size_t links_len,
                                        gfaffix_counts d,
                                        const uint64_t *rules, size_t rules_len,
                                        const uint64_t *steps, size_t steps_len,
                                        gfaffix_used u,
                                        const uint64_t *protected_ids, size_t protected_ids_len);

/* Whether steps is a walk of the graph with its nodes' lengths. 13 (also for an id or a direction out of range in any step,
 * and for more than GFAFFIX_MAX_STEPS), 5, then the first of 21, 22 and 23, step by step, else 0. The first place is 0, the
 * second is the step's for 21 to 23, else 0. Writes nothing. */
gfaffix_verdict gfaffix_check_steps(const uint64_t *nodes, size_t nodes_len,
                                    const uint8_t *text, size_t text_len,
                                    const uint64_t *links, size_t links_len,
                                    gfaffix_counts d,
                                    const gfaffix_step *steps, size_t steps_len);

/* The live part of a graph as S and L lines, into out; how many bytes. 13, 5, 7; then the length is 0. */
gfaffix_written gfaffix_print_active_subgraph(const uint64_t *nodes, size_t nodes_len,
                                              const uint8_t *text, size_t text_len,
                                              const uint64_t *links, size_t links_len,
                                              gfaffix_counts c,
                                              uint8_t *out, size_t out_len);

/* The table as text, a heading and a line for each old node whose walk is not just itself forward, into out; how many
 * bytes. 13 (also for a mark in the old graph), 5, 7; then the length is 0. */
gfaffix_written gfaffix_print_transformations(const uint64_t *nodes, size_t nodes_len,
                                              const uint8_t *text, size_t text_len,
                                              const uint64_t *links, size_t links_len,
                                              gfaffix_counts c,
                                              const uint64_t *rules, size_t rules_len,
                                              const uint64_t *steps, size_t steps_len,
                                              gfaffix_used u,
                                              uint8_t *out, size_t out_len);

/* The P and W lines of text, their walks rewritten by the table, into out; how many bytes. The graph is the old one, as it
 * was read from this text. 13 (also for a mark in the old graph), 5, then 1 and 2 line by line, 6, 7; then the length is 0. */
gfaffix_written gfaffix_parse_and_transform_paths(const uint8_t *text, size_t text_len,
                                                  const uint64_t *nodes, size_t nodes_len,
                                                  const uint8_t *letters, size_t letters_len,
                                                  const uint64_t *links, size_t links_len,
                                                  gfaffix_counts c,
                                                  const uint64_t *rules, size_t rules_len,
                                                  const uint64_t *steps, size_t steps_len,
                                                  gfaffix_used u,
                                                  uint8_t *out, size_t out_len);

#ifdef __cplusplus
}
#endif

#endif
