/* Every function of the header, as one list: its name, what it takes besides the table, and what is handed in (the letters are those of functions.c). */
#ifndef FUNCTIONS_H
#define FUNCTIONS_H
#include <stddef.h>
#include "vaultsorrel.h"

/* What a call hands in. x and y are numbers, weights or a state, size is a length or a count of steps, room counts words (text: bytes). */
typedef struct {
    uint32_t *table;
    size_t words;
    uint32_t *states;
    size_t state_words;
    uint32_t x, y;
    const uint32_t *list;
    size_t count;
    const vs_withdrawal *tray;
    size_t records;
    size_t size;
    uint64_t seed;
    const uint8_t *text;
    size_t bytes;
    void *out;
    size_t room;
} arguments;

/* What a function takes. */
enum { VERTEX = 1, HYPEREDGE = 2, WEIGHT = 4, SECOND = 8, MEMBERS_LIST = 16, HYPEREDGES_LIST = 32, SIZE = 64, WALK = 128, OUT = 256, TEXT = 512, READ = 1024,
       TRAY = 2048, DESK = 4096, ORDER = 8192, STATE = 16384 };

#define FUNCTIONS(F)                                                                                        \
    F(add_vertex, WEIGHT, (T, a->x))                                                                        \
    F(add_hyperedge, WEIGHT | MEMBERS_LIST, (T, L, a->x))                                                   \
    F(update_hyperedge_vertices, HYPEREDGE | MEMBERS_LIST, (T, E, L))                                       \
    F(remove_vertex, VERTEX, (T, X))                                                                        \
    F(merge_vertices, VERTEX | SECOND, (T, X, Y))                                                           \
    F(remove_hyperedge, HYPEREDGE, (T, E))                                                                  \
    F(withdraw_tray, TRAY, (T, R))                                                                          \
    F(clear, 0, (T))                                                                                        \
    F(is_empty, 0, (T))                                                                                     \
    F(get_adjacent_vertices_from, VERTEX | OUT, (T, X, O))                                                  \
    F(get_adjacent_vertices_to, VERTEX | OUT, (T, X, O))                                                    \
    F(get_full_adjacent_vertices_from, VERTEX | OUT, (T, X, O))                                             \
    F(get_full_adjacent_vertices_to, VERTEX | OUT, (T, X, O))                                               \
    F(get_vertex_degree_in, VERTEX, (T, X))                                                                 \
    F(get_vertex_degree_out, VERTEX, (T, X))                                                                \
    F(get_hyperedges_connecting, VERTEX | SECOND | OUT, (T, X, Y, O))                                       \
    F(get_hyperedges_intersections, HYPEREDGES_LIST | OUT, (T, L, O))                                       \
    F(find_hyperedges_by_weight, WEIGHT | OUT, (T, a->x, O))                                                \
    F(get_full_vertex_hyperedges, VERTEX | OUT, (T, X, O))                                                  \
    F(contains_vertex, WEIGHT, (T, a->x))                                                                   \
    F(get_vertex_neighborhood, VERTEX | OUT, (T, X, O))                                                     \
    F(get_vertex_index, WEIGHT | OUT, (T, a->x, O))                                                         \
    F(get_vertex_weight, VERTEX, (T, X))                                                                    \
    F(get_hyperedge_weight, HYPEREDGE, (T, E))                                                              \
    F(get_hyperedge_vertices, HYPEREDGE | OUT, (T, E, O))                                                   \
    F(get_vertices, OUT, (T, O))                                                                            \
    F(get_hyperedges, OUT, (T, O))                                                                          \
    F(get_bfs, VERTEX | OUT, (T, X, O))                                                                     \
    F(get_dfs, VERTEX | OUT, (T, X, O))                                                                     \
    F(is_reachable, VERTEX | SECOND, (T, X, Y))                                                             \
    F(get_upstream_vertices, VERTEX | OUT, (T, X, O))                                                       \
    F(get_downstream_vertices, VERTEX | OUT, (T, X, O))                                                     \
    F(is_connected, 0, (T))                                                                                 \
    F(is_acyclic, 0, (T))                                                                                   \
    F(get_transitive_closure, OUT, (T, O))                                                                  \
    F(topological_sort, OUT, (T, O))                                                                        \
    F(strongly_connected_components, OUT, (T, O))                                                           \
    F(connected_components, OUT, (T, O))                                                                    \
    F(get_orphan_vertices, OUT, (T, O))                                                                     \
    F(get_orphan_hyperedges, OUT, (T, O))                                                                   \
    F(get_endpoints, OUT, (T, O))                                                                           \
    F(get_inclusions, OUT, (T, O))                                                                          \
    F(find_cut_vertices, OUT, (T, O))                                                                       \
    F(get_nestedness_profile, OUT, (T, O))                                                                  \
    F(is_k_uniform, SIZE, (T, a->size))                                                                     \
    F(get_dijkstra_connections_with_cost, VERTEX | SECOND | OUT, (T, X, Y, O))                              \
    F(get_dijkstra_from, VERTEX | OUT, (T, X, O))                                                           \
    F(random_walk, VERTEX | WALK | OUT, (T, X, a->size, a->seed, O))                                        \
    F(write_frames, TEXT, (T, O))                                                                           \
    F(read_frames, READ, (T, a->text, a->bytes))                                                            \
    F(desk_add_vertex, DESK | WEIGHT, (T, S, a->x))                                                         \
    F(desk_add_hyperedge, DESK | WEIGHT | MEMBERS_LIST, (T, S, L, a->x))                                    \
    F(desk_update_hyperedge_vertices, DESK | HYPEREDGE | MEMBERS_LIST, (T, S, E, L))                        \
    F(desk_remove_vertex, DESK | VERTEX, (T, S, X))                                                         \
    F(desk_remove_hyperedge, DESK | HYPEREDGE, (T, S, E))                                                   \
    F(desk_merge_vertices, DESK | VERTEX | SECOND, (T, S, X, Y))                                            \
    F(desk_withdraw_tray, DESK | TRAY, (T, S, R))                                                           \
    F(desk_clear, DESK, (T, S))                                                                             \
    F(desk_read_frames, DESK | READ, (T, S, a->text, a->bytes))                                             \
    F(desk_review, DESK | VERTEX, (T, S, X))                                                                \
    F(desk_release, DESK | VERTEX, (T, S, X))                                                               \
    F(desk_accept_order, DESK | ORDER, (T, S, L))                                                           \
    F(desk_state, DESK | VERTEX, (T, S, X))                                                                 \
    F(desk_list, DESK | STATE | OUT, (T, S, a->x, O))                                                       \
    F(desk_releasable, DESK | OUT, (T, S, O))

#define NUMBER_OF(name, takes, words) F_##name,
enum { FUNCTIONS(NUMBER_OF) COUNT_OF_FUNCTIONS };

typedef struct {
    const char *name;
    int takes;
    vs_reply (*call)(const arguments *);
} function;

extern const function functions[COUNT_OF_FUNCTIONS];
#endif
