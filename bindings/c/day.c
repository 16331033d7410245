/* A day at the bench, from C: prints the sort, or why there is none. */
#include <stdio.h>
#include "vaultsorrel.h"

int main(void) {
    static uint32_t table[VS_TABLE_WORDS];
    uint32_t sorted[8];

    for (uint32_t weight = 0; weight < 5; weight++)
        vs_add_vertex(table, VS_TABLE_WORDS, weight);
    vs_add_hyperedge(table, VS_TABLE_WORDS, (const uint32_t[]){0, 1, 2}, 3, 4);
    vs_add_hyperedge(table, VS_TABLE_WORDS, (const uint32_t[]){0, 3}, 2, 1);
    vs_add_hyperedge(table, VS_TABLE_WORDS, (const uint32_t[]){3, 2}, 2, 2);

    vs_reply r = vs_topological_sort(table, VS_TABLE_WORDS, sorted, 8);
    if (r.number != 0) {
        printf("refused %u\n", r.number);
        return 1;
    }
    for (uint64_t i = 0; i < r.detail; i++)
        printf("%u\n", sorted[i]);

    r = vs_add_hyperedge(table, VS_TABLE_WORDS, (const uint32_t[]){2, 4, 4}, 3, 1);
    printf("a list with 4 twice in a row: refused %u, vertex %u\n", r.number, (unsigned)r.detail);

    r = vs_merge_vertices(table, VS_TABLE_WORDS, (vs_vertex){1}, (vs_vertex){3});
    printf("3 merged into 1: answer %u\n", r.number);
    r = vs_merge_vertices(table, VS_TABLE_WORDS, (vs_vertex){1}, (vs_vertex){0});
    printf("0 merged into 1: refused %u, side by side in hyperedge %u\n", r.number, (unsigned)r.detail);

    const vs_withdrawal tray[] = {{VS_VERTEX_KIND, 4}, {VS_HYPEREDGE_KIND, 1}, {VS_VERTEX_KIND, 9}};
    r = vs_withdraw_tray(table, VS_TABLE_WORDS, tray, 3);
    printf("a tray with vertex 9 in it: refused %u, record %u\n", r.number, (unsigned)r.detail);
    r = vs_withdraw_tray(table, VS_TABLE_WORDS, tray, 2);
    printf("the tray without it: answer %u\n", r.number);

    static uint32_t states[VS_STATES_WORDS];
    for (uint32_t v = 0; v < 3; v++)
        vs_desk_review(table, VS_TABLE_WORDS, states, VS_STATES_WORDS, (vs_vertex){v});
    r = vs_desk_release(table, VS_TABLE_WORDS, states, VS_STATES_WORDS, (vs_vertex){2});
    printf("2 released too early: refused %u, vertex %u upstream\n", r.number, (unsigned)r.detail);
    r = vs_desk_accept_order(table, VS_TABLE_WORDS, states, VS_STATES_WORDS, (const uint32_t[]){0, 2, 1}, 3);
    printf("the order 0 2 1: refused %u, place %u\n", r.number, (unsigned)r.detail);
    for (uint32_t v = 0; v < 3; v++)
        r = vs_desk_release(table, VS_TABLE_WORDS, states, VS_STATES_WORDS, (vs_vertex){v});
    printf("all released in the order 0 1 2: answer %u\n", r.number);

    vs_add_hyperedge(table, VS_TABLE_WORDS, (const uint32_t[]){2, 0}, 2, 1);
    r = vs_topological_sort(table, VS_TABLE_WORDS, sorted, 8);
    printf("with a step from 2 back to 0: refused %u\n", r.number);
    return r.number == 9 ? 0 : 1;
}
