/* Times the edits, alone and through the release desk, on tables that are full but for the record that is added. Each call works on a fresh
 * copy of the table, through the desk also of the states, and the copy is part of the time; rows of their own say what the copy alone takes. */
#include "tables.h"
#include "timing.h"
#include "vaultsorrel.h"

enum { TRAY = 40 };

static uint32_t full[WORDS], room[WORDS], gaps[WORDS], table[WORDS], members[MEMBERS];
static uint32_t some[VERTICES], states[VERTICES];
static vs_withdrawal tray[TRAY];

/* The dense table without its last vertex and its last hyperedge: room for one more of each. */
static void fill_room(uint32_t *t) {
    fill_dense(t);
    for (int j = 0; j < HYPEREDGES; j++)
        for (int i = 0; i < MEMBERS; i++)
            t[HYPEREDGES_AT + RECORD * j + 3 + i] %= VERTICES - 1;
    memset(t + VERTICES_AT + 2 * (VERTICES - 1), 0, 2 * sizeof *t);
    memset(t + HYPEREDGES_AT + RECORD * (HYPEREDGES - 1), 0, RECORD * sizeof *t);
    t[0] = t[2] = VERTICES - 1;
    t[1] = t[3] = HYPEREDGES - 1;
}

static void must_be_done(const char *what, vs_reply r) {
    if (r.number != 0) {
        printf("%s: refused %u\n", what, r.number);
        exit(1);
    }
}

#define EDIT(what, from, limit_ns, call)                            \
    do {                                                            \
        memcpy(table, from, sizeof table);                          \
        must_be_done(what, call);                                   \
        TIME(what, #from, limit_ns,                                 \
             memcpy(table, from, sizeof table); call);              \
    } while (0)

/* The table again, and states for it: of every kind, but that an unused record has 0. */
static void lend_desk(const uint32_t *from) {
    memcpy(table, from, sizeof table);
    memcpy(states, some, sizeof states);
    states[VERTICES - 1] = from[2] == VERTICES ? some[VERTICES - 1] : 0;
}

#define DESK(what, from, limit_ns, call)                   \
    do {                                                   \
        lend_desk(from);                                   \
        must_be_done(what, call);                          \
        TIME(what, #from, limit_ns, lend_desk(from); call); \
    } while (0)

#define D table, WORDS, states, VERTICES

static void time_desk(void) {
    puts("The same through the release desk; `gaps`: as `full`, with vertex numbers that lie 1 to 1,000 apart.");
    table_head();
    TIME("the copies alone", "full", 6000, lend_desk(full));
    DESK("desk_add_vertex", room, 7000, vs_desk_add_vertex(D, 7));
    DESK("desk_add_hyperedge", room, 7000, vs_desk_add_hyperedge(D, members, MEMBERS, 7));
    DESK("desk_update_hyperedge_vertices", full, 7000, vs_desk_update_hyperedge_vertices(D, (vs_hyperedge){100}, members, MEMBERS));
    DESK("desk_remove_hyperedge", full, 7000, vs_desk_remove_hyperedge(D, (vs_hyperedge){0}));
    DESK("desk_remove_vertex", full, 31000, vs_desk_remove_vertex(D, (vs_vertex){0}));
    DESK("desk_merge_vertices", full, 11000, vs_desk_merge_vertices(D, (vs_vertex){1}, (vs_vertex){0}));
    DESK("desk_withdraw_tray, 40 vertices", full, 251000, vs_desk_withdraw_tray(D, tray, TRAY));
    EDIT("remove_vertex", gaps, 60000, vs_remove_vertex(table, WORDS, (vs_vertex){gaps[VERTICES_AT]}));
    DESK("desk_remove_vertex", gaps, 61000, vs_desk_remove_vertex(D, (vs_vertex){gaps[VERTICES_AT]}));
}

int main(void) {
    fill_dense(full);
    fill_room(room);
    fill_gaps(gaps);
    for (uint32_t i = 0; i < VERTICES; i++)
        some[i] = i % 3;
    for (int i = 0; i < MEMBERS; i++)
        members[i] = (uint32_t)i;
    for (int i = 0; i < TRAY; i++)
        tray[i] = (vs_withdrawal){VS_VERTEX_KIND, 6 * (uint32_t)i};
    puts("Edits, dense numbers. `full`: 256 vertices, 192 hyperedges of 32 members; `room`: one less of each.");
    table_head();
    TIME("the copy alone", "full", 6000, memcpy(table, full, sizeof table));
    EDIT("add_vertex", room, 6000, vs_add_vertex(table, WORDS, 7));
    EDIT("add_hyperedge", room, 6000, vs_add_hyperedge(table, WORDS, members, MEMBERS, 7));
    EDIT("update_hyperedge_vertices", full, 6000, vs_update_hyperedge_vertices(table, WORDS, (vs_hyperedge){100}, members, MEMBERS));
    EDIT("remove_hyperedge", full, 6000, vs_remove_hyperedge(table, WORDS, (vs_hyperedge){0}));
    EDIT("remove_vertex", full, 30000, vs_remove_vertex(table, WORDS, (vs_vertex){0}));
    EDIT("merge_vertices", full, 10000, vs_merge_vertices(table, WORDS, (vs_vertex){1}, (vs_vertex){0}));
    EDIT("withdraw_tray, 40 vertices", full, 250000, vs_withdraw_tray(table, WORDS, tray, TRAY));
    time_desk();
    return 0;
}
