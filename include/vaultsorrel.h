/* Vaultsorrel's C interface.
 *
 * A table is a caller's slice of exactly 7,236 words; an answer goes into another slice of the caller's. The states of the release
 * desk are a slice of exactly 256 words, apart from the table. Any pointer and count that name real memory may be handed in: not
 * null (also where the count is 0), aligned for the type, no two of one call overlapping. Whatever stands in that memory, a call
 * answers or refuses, and a refusal changes nothing.
 *
 * A reply's number is 0 (done), or the refusal:
 *
 *    1  the table is not well formed, or the states do not fit it
 *    2  the member list is empty                        detail: the weight (add) or the hyperedge (update)
 *    3  a vertex is not live                            detail: the first missing one
 *    4  a hyperedge is not live                         detail: the first missing one
 *    5  the new list equals the old                     detail: the hyperedge
 *    6  the member list is over 32                      detail: its length
 *    7  256 vertices or 192 hyperedges are live
 *    8  the next number is 4,294,967,295
 *    9  the steps form a closed walk
 *   10  fewer than two hyperedges to intersect
 *   11  the answer is longer than the slice             detail: the words (text: bytes) needed
 *   12  the frame text is bad                           detail: the first line that no written text could have there
 *   13  a vertex is merged into itself                  detail: the vertex
 *   14  vertices to merge stand side by side            detail: the lowest hyperedge in which they do
 *   15  a record is of another kind or not live         detail: the position of the first such record, from 0
 *   17  the vertex to release is not reviewed           detail: the vertex
 *   18  something upstream is not released              detail: the lowest vertex with a step into it that is not released
 *   19  the order is not accepted                       detail: the place at fault, from 0, or the order's length
 *   20  the member list has two equal neighbours        detail: the first member that equals the one after it
 *
 * Where a call is done, the detail is the number given (adds), 1 or 0 (yes or no), the count (degrees), the weight, the state
 * (vs_desk_state), the words or bytes written (listings), else 0. A listing is written from the front of the slice, and the rest of the slice is kept.
 *
 * A call needs at most 192 KiB of stack (measured and added up from the frames: 155 KiB, bench/stack) and no other memory.
 */
#ifndef VAULTSORREL_H
#define VAULTSORREL_H

#include <stddef.h>
#include <stdint.h>

#ifdef __cplusplus
extern "C" {
#endif

enum { VS_TABLE_WORDS = 7236, VS_STATES_WORDS = 256 };

typedef struct {
    uint32_t number;
    uint64_t detail;
} vs_reply;

/* The two kinds of number: one is not taken for the other. */
typedef struct {
    uint32_t number;
} vs_vertex;

typedef struct {
    uint32_t number;
} vs_hyperedge;

/* A record of a tray: kind 0 names a vertex, kind 1 a hyperedge. Any other kind is refused. */
typedef struct {
    uint32_t kind;
    uint32_t number;
} vs_withdrawal;

enum { VS_VERTEX_KIND = 0, VS_HYPEREDGE_KIND = 1 };

/* What a vertex is at the release desk. */
enum { VS_WAITING = 0, VS_REVIEWED = 1, VS_RELEASED = 2 };

/* ---- Edits */

/* A new vertex. Refusals 1, 7, 8. */
vs_reply vs_add_vertex(uint32_t *table, size_t table_words, uint32_t weight);

/* A new hyperedge; where an identical one is live, its number. Refusals 1, 2, 6, 3, 20; where no identical one is live also 7, 8. */
vs_reply vs_add_hyperedge(uint32_t *table, size_t table_words, const uint32_t *members, size_t count, uint32_t weight);

/* Another member list; the weight is kept. Refusals 1, 2, 6, 3, 20, 4, 5. */
vs_reply vs_update_hyperedge_vertices(uint32_t *table, size_t table_words, vs_hyperedge hyperedge, const uint32_t *members,
                                      size_t count);

/* The vertex goes out of every list; lists that held it alone go with it. Refusals 1, 3. */
vs_reply vs_remove_vertex(uint32_t *table, size_t table_words, vs_vertex vertex);

/* w is merged into v: each w in every list becomes v, then w is removed. Lists keep their length, and hyperedges that become identical
 * stay. Side by side is v right before w, or w right before v. Refusals 1, 3 for v, 3 for w, 13, 14. */
vs_reply vs_merge_vertices(uint32_t *table, size_t table_words, vs_vertex v, vs_vertex w);

/* Refusals 1, 4. */
vs_reply vs_remove_hyperedge(uint32_t *table, size_t table_words, vs_hyperedge hyperedge);

/* Removes what every record names, or nothing at all: each record is judged against the table as it stood at the start. A vertex goes
 * out of every list, and a list that is emptied goes with it, whether a record names it or not. A record may be repeated. There may be
 * any number of records; where there are none the call is done and changes nothing. Refusals 1, 15. */
vs_reply vs_withdraw_tray(uint32_t *table, size_t table_words, const vs_withdrawal *records, size_t count);

/* Every word becomes 0, whatever it was. Refusal 1 for another length only. */
vs_reply vs_clear(uint32_t *table, size_t table_words);

/* Whether no vertex is live. Refusal 1. */
vs_reply vs_is_empty(const uint32_t *table, size_t table_words);

/* ---- Lookups. A step leads from a member to the one that stands right after it. */

/* The vertices to which a step leads from the vertex; from which one leads to it. Ascending. Refusals 1, 3, 11. */
vs_reply vs_get_adjacent_vertices_from(const uint32_t *table, size_t table_words, vs_vertex vertex, uint32_t *out, size_t out_words);
vs_reply vs_get_adjacent_vertices_to(const uint32_t *table, size_t table_words, vs_vertex vertex, uint32_t *out, size_t out_words);

/* The same, each as vertex, count, hyperedges: ascending, one for each place of the step. Refusals 1, 3, 11. */
vs_reply vs_get_full_adjacent_vertices_from(const uint32_t *table, size_t table_words, vs_vertex vertex, uint32_t *out,
                                            size_t out_words);
vs_reply vs_get_full_adjacent_vertices_to(const uint32_t *table, size_t table_words, vs_vertex vertex, uint32_t *out,
                                          size_t out_words);

/* How many places step to the vertex; from it. Refusals 1, 3. */
vs_reply vs_get_vertex_degree_in(const uint32_t *table, size_t table_words, vs_vertex vertex);
vs_reply vs_get_vertex_degree_out(const uint32_t *table, size_t table_words, vs_vertex vertex);

/* The hyperedges that step from one to the other, one for each place. Refusals 1, 3 for the first vertex only, 11. */
vs_reply vs_get_hyperedges_connecting(const uint32_t *table, size_t table_words, vs_vertex from, vs_vertex to, uint32_t *out,
                                      size_t out_words);

/* The vertices that every one of the hyperedges lists. Refusals 1, 10, 4, 11. */
vs_reply vs_get_hyperedges_intersections(const uint32_t *table, size_t table_words, const uint32_t *hyperedges, size_t count,
                                         uint32_t *out, size_t out_words);

/* Refusals 1, 11. */
vs_reply vs_find_hyperedges_by_weight(const uint32_t *table, size_t table_words, uint32_t weight, uint32_t *out, size_t out_words);

/* The lists that hold the vertex, each as length and members. Refusals 1, 3, 11. */
vs_reply vs_get_full_vertex_hyperedges(const uint32_t *table, size_t table_words, vs_vertex vertex, uint32_t *out, size_t out_words);

/* Whether a vertex of the weight is live. Refusal 1. */
vs_reply vs_contains_vertex(const uint32_t *table, size_t table_words, uint32_t weight);

/* The other members of the vertex's hyperedges. Refusals 1, 3, 11. */
vs_reply vs_get_vertex_neighborhood(const uint32_t *table, size_t table_words, vs_vertex vertex, uint32_t *out, size_t out_words);

/* The vertices of the weight. Refusals 1, 11. */
vs_reply vs_get_vertex_index(const uint32_t *table, size_t table_words, uint32_t weight, uint32_t *out, size_t out_words);

/* ---- Plain reads */

/* The vertex's weight. Refusals 1, 3. */
vs_reply vs_get_vertex_weight(const uint32_t *table, size_t table_words, vs_vertex vertex);

/* The hyperedge's weight. Refusals 1, 4. */
vs_reply vs_get_hyperedge_weight(const uint32_t *table, size_t table_words, vs_hyperedge hyperedge);

/* The hyperedge's members in their order, each as often as it is listed. Refusals 1, 4, 11. */
vs_reply vs_get_hyperedge_vertices(const uint32_t *table, size_t table_words, vs_hyperedge hyperedge, uint32_t *out,
                                   size_t out_words);

/* Every live vertex, ascending. Refusals 1, 11. */
vs_reply vs_get_vertices(const uint32_t *table, size_t table_words, uint32_t *out, size_t out_words);

/* Every live hyperedge, ascending. Refusals 1, 11. */
vs_reply vs_get_hyperedges(const uint32_t *table, size_t table_words, uint32_t *out, size_t out_words);

/* ---- Traversal */

/* What is reached from the vertex, breadth first; depth first in preorder. Smallest neighbour first. Refusals 1, 3, 11. */
vs_reply vs_get_bfs(const uint32_t *table, size_t table_words, vs_vertex vertex, uint32_t *out, size_t out_words);
vs_reply vs_get_dfs(const uint32_t *table, size_t table_words, vs_vertex vertex, uint32_t *out, size_t out_words);

/* Whether steps lead from one to the other; true of a vertex and itself. Refusals 1, 3 for the first, 3 for the second. */
vs_reply vs_is_reachable(const uint32_t *table, size_t table_words, vs_vertex from, vs_vertex to);

/* Every other vertex from which steps lead to the vertex; to which they lead from it. Ascending; the vertex itself is not listed.
 * Refusals 1, 3, 11. */
vs_reply vs_get_upstream_vertices(const uint32_t *table, size_t table_words, vs_vertex vertex, uint32_t *out, size_t out_words);
vs_reply vs_get_downstream_vertices(const uint32_t *table, size_t table_words, vs_vertex vertex, uint32_t *out, size_t out_words);

/* ---- Structure */

/* Whether the table is empty, or all vertices are linked through common hyperedges. Refusal 1. */
vs_reply vs_is_connected(const uint32_t *table, size_t table_words);

/* Whether the steps form no closed walk. Refusal 1. */
vs_reply vs_is_acyclic(const uint32_t *table, size_t table_words);

/* The pairs x, y with x not y and y reached from x, sorted. Refusals 1, 11. */
vs_reply vs_get_transitive_closure(const uint32_t *table, size_t table_words, uint32_t *out, size_t out_words);

/* The smallest order of the vertices in which every step goes forward. Refusals 1, 9, 11. */
vs_reply vs_topological_sort(const uint32_t *table, size_t table_words, uint32_t *out, size_t out_words);

/* The components, each as length and members, ascending: by mutual reachability; without direction. Refusals 1, 11.
 *
 * Those by mutual reachability are ordered by their latest finished member, the latest first: vertices are visited depth
 * first from ascending starts, largest neighbour first, and one is finished when every step from it is tried. Those without
 * direction are ordered by their smallest member. */
vs_reply vs_strongly_connected_components(const uint32_t *table, size_t table_words, uint32_t *out, size_t out_words);
vs_reply vs_connected_components(const uint32_t *table, size_t table_words, uint32_t *out, size_t out_words);

/* ---- Properties. Refusals 1, 11. */

/* The vertices in no hyperedge; the hyperedges without a member (none: 0 words). */
vs_reply vs_get_orphan_vertices(const uint32_t *table, size_t table_words, uint32_t *out, size_t out_words);
vs_reply vs_get_orphan_hyperedges(const uint32_t *table, size_t table_words, uint32_t *out, size_t out_words);

/* Count, vertices without a step in; count, vertices without a step out. */
vs_reply vs_get_endpoints(const uint32_t *table, size_t table_words, uint32_t *out, size_t out_words);

/* The pairs of hyperedges of which the first's set of members is strictly within the second's. */
vs_reply vs_get_inclusions(const uint32_t *table, size_t table_words, uint32_t *out, size_t out_words);

/* The vertices without which two others, linked through common hyperedges, no longer are. */
vs_reply vs_find_cut_vertices(const uint32_t *table, size_t table_words, uint32_t *out, size_t out_words);

/* A row for each number of distinct members: size, how many of that size are within another, how many there are. */
vs_reply vs_get_nestedness_profile(const uint32_t *table, size_t table_words, uint32_t *out, size_t out_words);

/* Whether every member list has k places. Refusal 1. */
vs_reply vs_is_k_uniform(const uint32_t *table, size_t table_words, size_t k);

/* ---- Paths. The cost of a step is the least weight among its hyperedges. */

/* Cost (low word, high word), count, entries of vertex and hyperedge; the first entry's hyperedge is 4,294,967,295. Where there
 * is no way: 0, 0, 0. Refusals 1, 3 for the first, 3 for the second, 11. */
vs_reply vs_get_dijkstra_connections_with_cost(const uint32_t *table, size_t table_words, vs_vertex from, vs_vertex to,
                                               uint32_t *out, size_t out_words);

/* Each vertex that is reached: vertex, cost (low word, high word). Refusals 1, 3, 11. */
vs_reply vs_get_dijkstra_from(const uint32_t *table, size_t table_words, vs_vertex from, uint32_t *out, size_t out_words);

/* ---- The walk */

/* The start, and a vertex for each step; over 4,096 steps are cut to 4,096. Refusals 1, 3, 11. */
vs_reply vs_random_walk(const uint32_t *table, size_t table_words, vs_vertex start, size_t steps, uint64_t seed, uint32_t *out,
                        size_t out_words);

/* ---- Frame text */

/* The table as text. Refusals 1, 11. */
vs_reply vs_write_frames(const uint32_t *table, size_t table_words, uint8_t *text, size_t text_bytes);

/* The table that the text was written from, next numbers included; what the table held before does not matter. Refusals 1 (only
 * for a wrong number of words), 12. */
vs_reply vs_read_frames(uint32_t *table, size_t table_words, const uint8_t *text, size_t text_bytes);

/* ---- The release desk. A vertex is released once it is reviewed and every vertex with a step into it is released.
 *
 * The states are a second lent slice, of 256 words, one for each vertex record: 0 waiting, 1 reviewed, 2 released. They must not overlap
 * the table. They fit a table where there are 256 of them, none is over 2, and each record that is not in use has 0; 256 words of 0 fit every
 * table. Every desk call but vs_desk_clear and vs_desk_read_frames gives 1 for states that do not fit. A refused call changes neither table
 * nor states. A table that has states is edited by the desk's calls alone: an edit of the table by itself moves no state, and after a removal
 * the states would be those of other vertices. */

/* The edits, through the desk: answer, refusals and table are those of the edit, with 1 also for states that do not fit. Each vertex
 * keeps its state, whichever record it stands in after the edit; a new one waits, and one that is removed, alone, in a tray or as the w
 * of a merge, loses its state. */
vs_reply vs_desk_add_vertex(uint32_t *table, size_t table_words, uint32_t *states, size_t states_words, uint32_t weight);
vs_reply vs_desk_add_hyperedge(uint32_t *table, size_t table_words, uint32_t *states, size_t states_words, const uint32_t *members,
                               size_t count, uint32_t weight);
vs_reply vs_desk_update_hyperedge_vertices(uint32_t *table, size_t table_words, uint32_t *states, size_t states_words,
                                           vs_hyperedge hyperedge, const uint32_t *members, size_t count);
vs_reply vs_desk_remove_vertex(uint32_t *table, size_t table_words, uint32_t *states, size_t states_words, vs_vertex vertex);
vs_reply vs_desk_remove_hyperedge(uint32_t *table, size_t table_words, uint32_t *states, size_t states_words, vs_hyperedge hyperedge);
vs_reply vs_desk_merge_vertices(uint32_t *table, size_t table_words, uint32_t *states, size_t states_words, vs_vertex v, vs_vertex w);
vs_reply vs_desk_withdraw_tray(uint32_t *table, size_t table_words, uint32_t *states, size_t states_words, const vs_withdrawal *records,
                               size_t count);

/* Every word of table and states becomes 0, whatever it was. Refusal 1 for another length of either only. */
vs_reply vs_desk_clear(uint32_t *table, size_t table_words, uint32_t *states, size_t states_words);

/* The table that the text was written from, and every state 0; what both held before does not matter. Refusals 1 (only for a wrong
 * number of words of either), 12. */
vs_reply vs_desk_read_frames(uint32_t *table, size_t table_words, uint32_t *states, size_t states_words, const uint8_t *text,
                             size_t text_bytes);

/* A waiting vertex becomes reviewed; a reviewed or released one stays what it is. Writes its state alone. Refusals 1, 3. */
vs_reply vs_desk_review(const uint32_t *table, size_t table_words, uint32_t *states, size_t states_words, vs_vertex vertex);

/* The vertex becomes released; where it is, nothing changes. Writes its state alone. Refusals 1, 3; where it is not released also 17, 18. */
vs_reply vs_desk_release(const uint32_t *table, size_t table_words, uint32_t *states, size_t states_words, vs_vertex vertex);

/* Whether the order is accepted: it lists every live vertex once, and every step goes forward. Refusals 1, 19: the first place whose
 * vertex is not live, is repeated, or has a step to itself or to an earlier entry; else the order's length, where it stops short. */
vs_reply vs_desk_accept_order(const uint32_t *table, size_t table_words, const uint32_t *states, size_t states_words,
                              const uint32_t *order, size_t count);

/* The state of the vertex. Refusals 1, 3. */
vs_reply vs_desk_state(const uint32_t *table, size_t table_words, const uint32_t *states, size_t states_words, vs_vertex vertex);

/* The vertices in the state, ascending; of a state over 2 none. Refusals 1, 11. */
vs_reply vs_desk_list(const uint32_t *table, size_t table_words, const uint32_t *states, size_t states_words, uint32_t state,
                      uint32_t *out, size_t out_words);

/* The vertices that a release would release now, ascending: reviewed, and every vertex with a step into them released. Refusals 1, 11. */
vs_reply vs_desk_releasable(const uint32_t *table, size_t table_words, const uint32_t *states, size_t states_words, uint32_t *out,
                            size_t out_words);

#ifdef __cplusplus
}
#endif
#endif
