/* Thinning: the services of libthinning.a.
 *
 * Each function answers 0, or the number of the first refusal. After a refusal every buffer and every out-number is
 * untouched. After an answer a buffer holds what is due to it at its start, and its old elements behind that.
 *
 * A buffer is a pointer to its first element and its number of elements. No function keeps a pointer after it
 * returns, allocates memory or needs one call before another.
 *
 * What the caller sees to: each pointer is aligned and not null, an empty buffer's too, and points to as many elements
 * as are said, an out-number's to one; what a function writes overlaps nothing else that it is given; during the call
 * nobody else writes what it is given, or reads what it writes.
 *
 * thinning_plan, thinning_plan_candidates, thinning_plan_table, thinning_check_chain and thinning_reasons go as deep as
 * there are vertices: at 256 vertices the three planners take up to 1.46 MB of stack, the chain check 1.47 MB and the
 * reasons 1.48 MB, measured by the command ./stack.
 *
 * The refusals:
 *    1  the form: a broken line, a wrong kind or length, a missing frame, bytes left over; columns of a wrong length
 *    2  the number of vertices is not 2 to 256
 *    3  the reserved edge, or one of a list of candidates for it, is none of the network's
 *    4  an edge out of its place, or the ends of an edge or a span are not two vertices of the network, the lower one
 *       first
 *    5  a cost below -1000000000000 or above 1000000000000
 *    6  a vertex without degree 4
 *    7  a cut that fewer than four edges cross
 *    8  a step's v is no end of the reserved edge
 *    9  a step's x or y is no partner at v, or they are one
 *   10  a step's x or y is not admissible
 *   11  a step's x costs less than its y
 *   12  the dropped edge is none of the last three, or cheaper than another of them
 *   13  a buffer is too short for what is due to it
 *   14  a listed edge is none of the network's, or not above the one before it
 *   15  a span's doubled weight is not 1 to 4, or its pair of ends is not above the one before it, by the lower end and
 *       then by the higher one
 *   16  more spans than the network has edges, or doubled weights that do not total as many
 *   17  a step's z is not the third partner at v, or its cost is not the one after the step
 *
 * A network of n vertices has 2n edges, which are numbered from 0.
 *
 * A table stands for a network: each of its spans for as many edges as its doubled weight says, of its ends and its
 * cost, numbered on in the order of the spans. The reserved edge in its head is one of these numbers. */
#ifndef THINNING_H
#define THINNING_H

#include <stdbool.h>
#include <stddef.h>
#include <stdint.h>

#ifdef __cplusplus
extern "C" {
#endif

/* The most that a network has. */
#define THINNING_VERTICES 256
#define THINNING_EDGES 512
#define THINNING_STEPS 254

/* The most bytes that a text has. A buffer of so many is never too short. */
#define THINNING_NETWORK_TEXT 15883
#define THINNING_CHAIN_TEXT 8897
#define THINNING_KEPT_TEXT 3612
#define THINNING_REASONS_TEXT 6656
#define THINNING_LIST_TEXT 3584
#define THINNING_PAGE_TEXT 18981
#define THINNING_TABLE_TEXT 14863

/* The bytes of each candidate's frame. */
#define THINNING_COSTS_TEXT 35

/* What puts an edge in or out: the rules in frames of thinning_reasons. Edges are kept by rules 1, 2 and 4 alone. */
enum thinning_rule {
    THINNING_RULE_RESERVED = 0,
    THINNING_RULE_KEPT_AS_Y = 1,
    THINNING_RULE_KEPT_AS_X = 2,
    THINNING_RULE_OUT_AS_X = 3,
    THINNING_RULE_KEPT_AT_ENDING = 4,
    THINNING_RULE_DROPPED_AT_ENDING = 5
};

/* Checks a network text. Refusals: 1 to 5, whichever comes first in the text, then 6, then 7. */
uint32_t thinning_check_network(const uint8_t *network, size_t network_len);

/* Plans a network text: writes the chain text and the kept text, and their lengths in bytes.
 * Refusals: 1 to 7 of the network, as in its check, then 13 if either buffer is too short.
 * Room for every plan: chain THINNING_CHAIN_TEXT bytes, kept THINNING_KEPT_TEXT bytes. */
uint32_t thinning_plan(const uint8_t *network, size_t network_len,
                       uint8_t *chain, size_t chain_len,
                       uint8_t *kept, size_t kept_len,
                       size_t *chain_written, size_t *kept_written);

/* Plans a network text for a list of candidates, each of which is reserved in its turn in place of the edge that the
 * network's head names: writes a frame 06 for each, in the order of the list, and the length of them all in bytes. A
 * frame has the cost of the edges that the plan keeps and the cost of all edges but the candidate: it is the one at the
 * end of the kept text that thinning_plan writes for the network with that edge reserved. The list may have any order
 * and repeat an edge; for an empty one there are no frames, and their length is 0.
 * Refusals: 1 to 7 of the network, as in its check, where the head's reserved edge counts too; then 3 if any number of
 * the list is none of the network's edges; then 13.
 * Room for k candidates: costs THINNING_COSTS_TEXT * k bytes. */
uint32_t thinning_plan_candidates(const uint8_t *network, size_t network_len,
                                  const uint16_t *reserved, size_t reserved_len,
                                  uint8_t *costs, size_t costs_len,
                                  size_t *written);

/* Checks any bytes proposed as a chain over a network text: writes the kept text, and its length in bytes.
 * A step names v, x and y, the third partner z at v, and the cost of z after the step, its own less that of x.
 * Refusals: 1 to 7 of the network, as in its check; then 1, 8 to 12 and 17 of the chain, whichever comes first in it,
 * where 17 of a step comes after its 11; then 13.
 * Room for every chain: kept THINNING_KEPT_TEXT bytes. */
uint32_t thinning_check_chain(const uint8_t *network, size_t network_len,
                              const uint8_t *chain, size_t chain_len,
                              uint8_t *kept, size_t kept_len,
                              size_t *kept_written);

/* Says what put each edge in or out, for any bytes proposed as a chain over a network text: writes a frame 0a for each
 * edge, in the order of their numbers, and the length of them all in bytes. A frame has the edge, its rule and a step,
 * of which the first is 1. A rule is how the edge left the network, whether or not it was a z before:
 *    0  it is the reserved edge
 *    1  it was y of the step, and is kept
 *    2  it was x of the step, and is kept, since z is not
 *    3  it was x of the step, and is out, since z is kept
 *    4  it was one of the last three, and is kept
 *    5  it was one of the last three, and is dropped
 * The step is 0 for rules 0, 4 and 5. The edges of rules 1, 2 and 4 are those of the kept text that the chain's check
 * writes.
 * Refusals: 1 to 7 of the network, then 1, 8 to 12 and 17 of the chain, all as in the chain's check; then 13.
 * Room for every chain: reasons THINNING_REASONS_TEXT bytes; for n vertices 26 * n. */
uint32_t thinning_reasons(const uint8_t *network, size_t network_len,
                          const uint8_t *chain, size_t chain_len,
                          uint8_t *reasons, size_t reasons_len,
                          size_t *written);

/* Audits a list over a network text, which must read but need not be accepted: whether the listed edges join all
 * vertices, how many vertices they join to vertex 0 (itself included), and how many of them are critical. A listed edge
 * is critical if its ends are joined by the list and not by the list without it: it is a bridge of the listed graph,
 * whether that is in one piece or has islands.
 * Refusals: 1 to 5 of the network, whichever comes first in the text, then 1 and 14 of the list. */
uint32_t thinning_audit(const uint8_t *network, size_t network_len, const uint8_t *list, size_t list_len,
                        bool *connected, size_t *reached, size_t *critical);

/* Prints a list over a network text, which must read but need not be accepted: writes the page, and its length in
 * bytes. A line of the page is 36 characters and a line feed. For each listed edge, in the order of the list, there is
 * a line with the edge in 6 characters, its lower end in 6, its higher end in 6 and its cost in 18; the last line has
 * 18 spaces and the sum of the listed costs in 18. A number is right-aligned behind spaces, in base ten without leading
 * zeros, with a minus directly before its first digit if it is below zero. The page of an empty list is one line, whose
 * sum is 0.
 * Refusals: 1 to 5 of the network, whichever comes first in the text, then 1 and 14 of the list, whichever comes first
 * in it, then 13. Degrees and cuts are not looked at.
 * Room for every list: page THINNING_PAGE_TEXT bytes; for one of k edges 37 * (k + 1). */
uint32_t thinning_print_page(const uint8_t *network, size_t network_len, const uint8_t *list, size_t list_len,
                             uint8_t *page, size_t page_len,
                             size_t *written);

/* Checks a table text. Refusals: 1 to 5, 15 and 16 for the number of spans, whichever comes first in the text, then 16
 * for the total of the weights, then 6 and 7 of the network that the table stands for. */
uint32_t thinning_check_table(const uint8_t *table, size_t table_len);

/* Plans a table text: writes the chain text and the kept text of the network that the table stands for, the same that
 * thinning_plan writes, and their lengths in bytes.
 * Refusals: 1 to 7, 15 and 16, as in the table's check, then 13 if either buffer is too short.
 * Room for every plan: chain THINNING_CHAIN_TEXT bytes, kept THINNING_KEPT_TEXT bytes. */
uint32_t thinning_plan_table(const uint8_t *table, size_t table_len,
                             uint8_t *chain, size_t chain_len,
                             uint8_t *kept, size_t kept_len,
                             size_t *chain_written, size_t *kept_written);

/* Writes the network text that a table text stands for, and its length in bytes.
 * Refusals: 1 to 5, 15 and 16, as in the table's check, then 13. Degrees and cuts are not looked at.
 * Room for every table: network THINNING_NETWORK_TEXT bytes. */
uint32_t thinning_table_network(const uint8_t *table, size_t table_len,
                                uint8_t *network, size_t network_len,
                                size_t *written);

/* Reads a network text: writes the lower end, the higher end and the cost of each edge, by its number, and the number
 * of vertices and the reserved edge. Each column gets twice as many elements as there are vertices.
 * Refusals: 1 to 5, whichever comes first in the text, then 13 if a column is too short. Degrees and cuts are not
 * looked at.
 * Room for every network: THINNING_EDGES elements in each column. */
uint32_t thinning_read_network(const uint8_t *text, size_t text_len,
                               uint16_t *low, size_t low_len,
                               uint16_t *high, size_t high_len,
                               int64_t *cost, size_t cost_len,
                               size_t *vertices, size_t *reserved);

/* Writes the network text of columns, which have as many elements as there are edges, and its length in bytes.
 * Refusals: 2, 3, then 1 for a column of another length and 4 and 5 of the edges, whichever comes first by the edges'
 * numbers, then 13. Degrees and cuts are not looked at.
 * Room for every network: text THINNING_NETWORK_TEXT bytes. */
uint32_t thinning_write_network(size_t vertices, size_t reserved,
                                const uint16_t *low, size_t low_len,
                                const uint16_t *high, size_t high_len,
                                const int64_t *cost, size_t cost_len,
                                uint8_t *text, size_t text_len,
                                size_t *written);

/* Reads a chain text for so many vertices: writes v, x, y, z and the cost of z after the step, for each step, and the
 * edge that the ending drops. Each column gets two elements fewer than there are vertices.
 * Refusals: 2, then 1 of the text, then 13 if a column is too short. The steps are not judged, and a cost may be any
 * number.
 * Room for every chain: THINNING_STEPS elements in each column. */
uint32_t thinning_read_chain(size_t vertices,
                             const uint8_t *text, size_t text_len,
                             uint16_t *v, size_t v_len,
                             uint16_t *x, size_t x_len,
                             uint16_t *y, size_t y_len,
                             uint16_t *z, size_t z_len,
                             int64_t *cost, size_t cost_len,
                             uint16_t *dropped);

/* Writes the chain text of columns, which have two elements fewer than there are vertices, and its length in bytes.
 * Refusals: 2, then 1 for a column of another length, then 13. The steps are not judged, and a cost may be any number.
 * Room for every chain: text THINNING_CHAIN_TEXT bytes. */
uint32_t thinning_write_chain(size_t vertices,
                              const uint16_t *v, size_t v_len,
                              const uint16_t *x, size_t x_len,
                              const uint16_t *y, size_t y_len,
                              const uint16_t *z, size_t z_len,
                              const int64_t *cost, size_t cost_len,
                              uint16_t dropped,
                              uint8_t *text, size_t text_len,
                              size_t *written);

/* Reads an audit list for so many vertices: writes its edges, and how many they are.
 * Refusals: 2, then 1 and 14 of the text, whichever comes first in it, then 13.
 * Room for every list: THINNING_EDGES edges. */
uint32_t thinning_read_list(size_t vertices,
                            const uint8_t *text, size_t text_len,
                            uint16_t *edges, size_t edges_len,
                            size_t *count);

/* Writes the audit list of rising edges, and its length in bytes.
 * Refusals: 2, then 14, then 13.
 * Room for every list: text THINNING_LIST_TEXT bytes. */
uint32_t thinning_write_list(size_t vertices,
                             const uint16_t *edges, size_t edges_len,
                             uint8_t *text, size_t text_len,
                             size_t *written);

#ifdef __cplusplus
}
#endif

#endif
