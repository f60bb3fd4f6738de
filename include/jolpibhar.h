/* The panel scanner's calls for C. README.md says what each does.
 *
 * Each call returns the answer's number: PANEL_DONE, or why it is refused. Beside a refusal every number that
 * a call writes through a pointer is 0, but for the ancestor beside PANEL_BELOW_LEAF, and all lent bytes, of the panel and
 * of a round's answers, are as before.
 *
 * panel_number, panel_pinned, panel_split, panel_merge, panel_pin and panel_unpin write an ancestor: beside
 * PANEL_BELOW_LEAF the one leaf among the node's ancestors, and 0 beside every other answer, PANEL_DONE too.
 *
 * A panel is lent as a pointer and its length in bytes, `len`; so are a round's records and answers. Pointers are not null,
 * also where the length is 0, and no two arguments of one call lend the same byte. A call keeps no pointer and writes nothing
 * outside the bytes and the numbers that it is lent to write.
 *
 * Threads: calls share nothing, there is no global state. Calls on different panels may run at the same time; what
 * a call writes, panel or answers, is lent to that one call alone.
 * Platforms: the archive is for x86-64 Linux. Numbers and bytes are the same on any machine.
 */
#ifndef JOLPIBHAR_H
#define JOLPIBHAR_H

#include <stddef.h>
#include <stdint.h>

#define JOLPIBHAR_VERSION_MAJOR 0
#define JOLPIBHAR_VERSION_MINOR 8
#define JOLPIBHAR_VERSION_PATCH 0
#define JOLPIBHAR_VERSION "0.8.0"

/* The depth of the finest panel; the coarsest is of depth 3. */
#define PANEL_GREATEST_DEPTH 17

/* The bytes of a panel of depth D, 2^(D-1) + 2^(D-3). Where D is a constant it is one too: uint8_t panel[PANEL_BYTES(PANEL_GREATEST_DEPTH)]; */
#define PANEL_BYTES(D) ((size_t)5 << ((D) - 3))

/* The bytes of a record: its kind, three zero bytes, and then a node as four bytes, lowest first. They are those of a request file. */
#define PANEL_RECORD_BYTES 8

#ifdef __cplusplus
extern "C" {
#endif

/* In the order of testing: the first that applies is answered. */
enum {
    PANEL_DONE = 0,
    PANEL_WRONG_LENGTH = 1,      /* length isn't 2^(D-1) + 2^(D-3) for a D of 3 to 17; on open, also a depth out of range or that doesn't fit */
    PANEL_NOT_GOOD = 2,          /* length fits, panel isn't good */
    PANEL_NO_SUCH_NODE = 3,      /* node below 2, or above 2^(D+1)-1 (above 262,143 for calls that take no panel) */
    PANEL_IS_CUT = 4,            /* node is in range and is itself cut */
    PANEL_BELOW_LEAF = 10,       /* node is in range and an ancestor of it is the leaf */
    PANEL_AT_GREATEST_DEPTH = 5, /* leaf is at depth D */
    PANEL_AT_DEPTH_ONE = 6,      /* leaf is at depth 1 */
    PANEL_LEAVES_MISSING = 7,    /* leaf is deeper, but not all the leaves the merge needs are there */
    PANEL_LEAF_PINNED = 11,      /* the merge would remove a pinned leaf, on the leaf's own side or across the long side */
    PANEL_NO_SUCH_NUMBER = 8,    /* leaf number is at or above the count */
    PANEL_NO_ROOM = 16,          /* what is lent for the answers has fewer bytes than there are whole records */
    PANEL_BYTES_LEFT = 17,       /* bytes are left over behind the last whole record */
    PANEL_BAD_RECORD = 9,        /* bad record: given in a round, for one record, and by the program, never by the other calls; tested before its others */
    PANEL_IN_USE = 18            /* given by the program, never by these calls: an open while its panel has more than two leaves */
};

/* The kinds of record that a round takes. */
enum {
    PANEL_RECORD_SPLIT = 1,
    PANEL_RECORD_MERGE = 2
};

/* ---- calls that take no panel: nodes from 2 to 262,143 */

/* The neighbours of a node at its own depth; 0 is none. `edge` lies across the long side A-C of node_corners; `left` lies across B-C
 * at odd depth and across A-B at even depth, `right` across the other of the two. Answers 0, 3. */
uint32_t node_neighbours(uint32_t node, uint32_t *left, uint32_t *right, uint32_t *edge);

/* The corners A, B, C of a node's triangle in a panel from (0,0) to (256,256). They turn counterclockwise with y upward, at every depth. B is the
 * corner across from the long side, which goes from the first point, A, to the last, C. Answers 0, 3. */
uint32_t node_corners(uint32_t node, uint32_t *ax, uint32_t *ay, uint32_t *bx, uint32_t *by, uint32_t *cx, uint32_t *cy);

/* ---- calls that read a panel */

/* Whether the panel is good. Answers 0, 1, 2. */
uint32_t panel_judge(const uint8_t *panel, size_t len);

/* The number of leaves. Answers 0, 1, 2. */
uint32_t panel_count(const uint8_t *panel, size_t len, uint32_t *count);

/* The node of a leaf number, from 0 up, from left to right. Answers 0, 1, 2, 8. */
uint32_t panel_leaf(const uint8_t *panel, size_t len, uint32_t number, uint32_t *node);

/* The leaf number of a node. Answers 0, 1, 2, 3, 4, 10. */
uint32_t panel_number(const uint8_t *panel, size_t len, uint32_t node, uint32_t *number, uint32_t *ancestor);

/* Which bytes of the panel the leaf bits fill: the place of the first, and how many. Answers 0, 1, 2. */
uint32_t panel_leaf_bits(const uint8_t *panel, size_t len, size_t *start, size_t *size);

/* Whether a leaf is pinned: 1 if it is, and else 0. Answers 0, 1, 2, 3, 4, 10. */
uint32_t panel_pinned(const uint8_t *panel, size_t len, uint32_t node, uint32_t *pinned, uint32_t *ancestor);

/* ---- calls that change a panel */

/* Writes every byte: the fresh panel of this depth, with the leaves 2 and 3 and no pin. Answers 0, 1. */
uint32_t panel_open(uint8_t *panel, size_t len, uint32_t depth);

/* Cuts a leaf, and what must be cut with it so that the panel stays good. The pin of each leaf that is cut passes to both its children.
 * Answers 0, 1, 2, 3, 4, 10, 5. */
uint32_t panel_split(uint8_t *panel, size_t len, uint32_t node, uint32_t *ancestor);

/* Takes back the cut that made a leaf, and the one across the long side. What comes back has no pin. Answers 0, 1, 2, 3, 4, 10, 6, 7, 11. */
uint32_t panel_merge(uint8_t *panel, size_t len, uint32_t node, uint32_t *ancestor);

/* Pins a leaf, so that no merge takes it away. It may be pinned already. Answers 0, 1, 2, 3, 4, 10. */
uint32_t panel_pin(uint8_t *panel, size_t len, uint32_t node, uint32_t *ancestor);

/* Takes a leaf's pin away. It may have none. Answers 0, 1, 2, 3, 4, 10. */
uint32_t panel_unpin(uint8_t *panel, size_t len, uint32_t node, uint32_t *ancestor);

/* A round: works through records in order, with the panel judged once. Each is a panel_split or a panel_merge, and answers[i] becomes the
 * answer of record i: 0, 9, 3, 4, 10, 5, 6, 7 or 11, in one byte and with no ancestor. It is 9 where the kind is another or a spare byte isn't
 * zero. A record that is refused changes nothing, and the round goes on. Bytes past the last answer stay. There may be any number of
 * records, also none. Beside a refusal of the round neither the panel nor an answer is written. Answers 0, 1, 2, 16, 17. */
uint32_t panel_round(uint8_t *panel, size_t len, const uint8_t *records, size_t records_len, uint8_t *answers, size_t answers_len);

/* Mends bytes of a right length, whatever they hold: writes the smallest good panel that has every cut that a set leaf bit names, and that of
 * node 1. Sums, depth word and spare bits are made anew. A pin stays where a leaf bit is set afterwards; the others are cleared, and none is
 * passed on. `added` becomes the number of cuts that no leaf bit named. A good panel stays as it is, with 0. Answers 0, 1. */
uint32_t panel_mend(uint8_t *panel, size_t len, uint32_t *added);

#ifdef __cplusplus
}
#endif

#endif
