/* Times the queries and the calls of the release desk on full tables: 256 vertices, 192 hyperedges of 32 members. */
#include "tables.h"
#include "timing.h"
#include "vaultsorrel.h"

enum { ROOM = 140000 };

static uint32_t full[WORDS], ascending[WORDS], nested[WORDS], gaps[WORDS], copy[WORDS], out[ROOM];
static uint32_t waiting[VERTICES], held[VERTICES], free_to_go[VERTICES], states[VERTICES], order[VERTICES];
static uint8_t text[ROOM];
static const uint32_t pair[2] = {17, 18};

#define V(n) ((vs_vertex){n})
#define E(n) ((vs_hyperedge){n})

#define ANSWER(what, table, expected, limit_ns, call)                 \
    do {                                                              \
        vs_reply r = call;                                            \
        if (r.number != expected) {                                   \
            printf("%s: answered %u\n", what, r.number);              \
            exit(1);                                                  \
        }                                                             \
        TIME(what, table, limit_ns, r = call);                        \
    } while (0)

#define QUERY(what, limit_ns, call) ANSWER(what, "full, dense numbers", 0, limit_ns, call)

/* A call that writes the states, each time on a fresh copy of them. */
static vs_reply on_states(const uint32_t *table, const uint32_t *from, uint32_t v,
                          vs_reply (*call)(const uint32_t *, size_t, uint32_t *, size_t, vs_vertex)) {
    memcpy(states, from, sizeof states);
    return call(table, WORDS, states, VERTICES, V(v));
}

/* Vertex 100 reviewed and all others released, in `held` but the last that has a step into it. */
static void fill_states(const uint32_t *table) {
    vs_reply r = vs_get_adjacent_vertices_to(table, WORDS, V(100), out, ROOM);
    for (int i = 0; i < VERTICES; i++)
        held[i] = free_to_go[i] = i == 100 ? 1 : 2;
    held[out[r.detail - 1]] = 1;
}

static void time_desk(void) {
    const char *dense = "full, dense numbers", *forward = "full, dense, lists ascending", *apart = "gaps of 1 to 1,000";
    const uint32_t v = gaps[VERTICES_AT + 200];
    puts("The release desk, the tests of table and states and a copy of the states included.");
    table_head();
    fill_states(full);
    ANSWER("desk_review", dense, 0, 8000, on_states(full, waiting, 100, vs_desk_review));
    ANSWER("desk_review", apart, 0, 40000, on_states(gaps, waiting, v, vs_desk_review));
    ANSWER("desk_release", dense, 0, 8000, on_states(full, free_to_go, 100, vs_desk_release));
    ANSWER("desk_release, refused 18", dense, 18, 8000, on_states(full, held, 100, vs_desk_release));
    ANSWER("desk_release", apart, 0, 40000, on_states(gaps, free_to_go, v, vs_desk_release));
    const size_t count = vs_topological_sort(ascending, WORDS, order, VERTICES).detail;
    ANSWER("desk_accept_order", forward, 0, 40000, vs_desk_accept_order(ascending, WORDS, waiting, VERTICES, order, count));
    ANSWER("desk_accept_order, refused", dense, 19, 40000, vs_desk_accept_order(full, WORDS, waiting, VERTICES, order, count));
    ANSWER("desk_state", dense, 0, 8000, vs_desk_state(full, WORDS, held, VERTICES, V(100)));
    ANSWER("desk_list", dense, 0, 8000, vs_desk_list(full, WORDS, held, VERTICES, 2, out, ROOM));
    ANSWER("desk_releasable", dense, 0, 40000, vs_desk_releasable(full, WORDS, held, VERTICES, out, ROOM));
}

int main(void) {
    fill_dense(full);
    fill_ascending(ascending);
    fill_nested(nested);
    fill_gaps(gaps);
    puts("Queries, the test of the table included.");
    table_head();
    QUERY("adjacent_vertices_from", 8000, vs_get_adjacent_vertices_from(full, WORDS, V(100), out, ROOM));
    QUERY("vertex_neighborhood", 8000, vs_get_vertex_neighborhood(full, WORDS, V(100), out, ROOM));
    QUERY("vertex_degree_out", 8000, vs_get_vertex_degree_out(full, WORDS, V(100)));
    QUERY("hyperedges_connecting", 8000, vs_get_hyperedges_connecting(full, WORDS, V(100), V(101), out, ROOM));
    QUERY("full_adjacent_from", 15000, vs_get_full_adjacent_vertices_from(full, WORDS, V(100), out, ROOM));
    QUERY("full_adjacent_to", 15000, vs_get_full_adjacent_vertices_to(full, WORDS, V(100), out, ROOM));
    QUERY("intersections of 2", 8000, vs_get_hyperedges_intersections(full, WORDS, pair, 2, out, ROOM));
    QUERY("hyperedges_by_weight", 8000, vs_find_hyperedges_by_weight(full, WORDS, 500, out, ROOM));
    QUERY("full_vertex_hyperedges", 15000, vs_get_full_vertex_hyperedges(full, WORDS, V(100), out, ROOM));
    QUERY("vertex_index", 8000, vs_get_vertex_index(full, WORDS, 500, out, ROOM));
    QUERY("contains_vertex", 8000, vs_contains_vertex(full, WORDS, 500));
    QUERY("vertex_weight", 8000, vs_get_vertex_weight(full, WORDS, V(100)));
    QUERY("hyperedge_weight", 8000, vs_get_hyperedge_weight(full, WORDS, E(100)));
    QUERY("hyperedge_vertices", 8000, vs_get_hyperedge_vertices(full, WORDS, E(100), out, ROOM));
    QUERY("vertices", 8000, vs_get_vertices(full, WORDS, out, ROOM));
    QUERY("hyperedges", 8000, vs_get_hyperedges(full, WORDS, out, ROOM));
    QUERY("is_reachable", 80000, vs_is_reachable(full, WORDS, V(0), V(255)));
    QUERY("bfs", 80000, vs_get_bfs(full, WORDS, V(0), out, ROOM));
    QUERY("upstream_vertices", 80000, vs_get_upstream_vertices(full, WORDS, V(100), out, ROOM));
    QUERY("downstream_vertices", 80000, vs_get_downstream_vertices(full, WORDS, V(100), out, ROOM));
    ANSWER("topological_sort", "full, dense, lists ascending", 0, 120000, vs_topological_sort(ascending, WORDS, out, ROOM));
    ANSWER("topological_sort, refused", "full, dense numbers", 9, 120000, vs_topological_sort(full, WORDS, out, ROOM));
    ANSWER("is_acyclic", "full, dense, lists ascending", 0, 120000, vs_is_acyclic(ascending, WORDS));
    QUERY("is_connected", 80000, vs_is_connected(full, WORDS));
    QUERY("connected_components", 80000, vs_connected_components(full, WORDS, out, ROOM));
    QUERY("strong components", 400000, vs_strongly_connected_components(full, WORDS, out, ROOM));
    ANSWER("strong components", "full, dense, lists ascending", 0, 400000, vs_strongly_connected_components(ascending, WORDS, out, ROOM));
    QUERY("transitive_closure", 10000000, vs_get_transitive_closure(full, WORDS, out, ROOM));
    QUERY("cut_vertices", 3000000, vs_find_cut_vertices(full, WORDS, out, ROOM));
    QUERY("dfs", 80000, vs_get_dfs(full, WORDS, V(0), out, ROOM));
    QUERY("orphan_vertices", 20000, vs_get_orphan_vertices(full, WORDS, out, ROOM));
    QUERY("orphan_hyperedges", 20000, vs_get_orphan_hyperedges(full, WORDS, out, ROOM));
    QUERY("endpoints", 20000, vs_get_endpoints(full, WORDS, out, ROOM));
    QUERY("is_k_uniform", 20000, vs_is_k_uniform(full, WORDS, 32));
    QUERY("inclusions", 1500000, vs_get_inclusions(full, WORDS, out, ROOM));
    QUERY("nestedness_profile", 1500000, vs_get_nestedness_profile(full, WORDS, out, ROOM));
    ANSWER("inclusions", "nested lists", 0, 1500000, vs_get_inclusions(nested, WORDS, out, ROOM));
    ANSWER("nestedness_profile", "nested lists", 0, 1500000, vs_get_nestedness_profile(nested, WORDS, out, ROOM));
    QUERY("dijkstra_connections_with_cost", 120000, vs_get_dijkstra_connections_with_cost(full, WORDS, V(0), V(255), out, ROOM));
    QUERY("dijkstra_from", 120000, vs_get_dijkstra_from(full, WORDS, V(0), out, ROOM));
    const size_t bytes = vs_write_frames(full, WORDS, text, sizeof text).detail;
    QUERY("write_frames", 60000, vs_write_frames(full, WORDS, text, sizeof text));
    QUERY("read_frames", 150000, vs_read_frames(copy, WORDS, text, bytes));
    QUERY("random_walk of 4,096 steps", 2500000, vs_random_walk(full, WORDS, V(0), 4096, 1, out, ROOM));
    time_desk();
    return 0;
}
