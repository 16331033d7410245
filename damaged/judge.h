/* What the rules say of a call, worked out from the rules alone and in the plainest way. */
#ifndef JUDGE_H
#define JUDGE_H
#include <stdbool.h>
#include "functions.h"

enum { TABLE = 7236, STATES = 256, MOST_VERTICES = 256, MOST_HYPEREDGES = 192, MOST_MEMBERS = 32, MOST_WORDS = 140000 };

/* What a table holds. Members are kept as places among the vertices. */
typedef struct {
    bool sized, formed;
    uint32_t next_vertex, next_hyperedge;
    int n, m;
    uint32_t vertex[MOST_VERTICES], vertex_weight[MOST_VERTICES];
    uint32_t hyperedge[MOST_HYPEREDGES], weight[MOST_HYPEREDGES];
    int count[MOST_HYPEREDGES], member[MOST_HYPEREDGES][MOST_MEMBERS];
} content;

/* The verdict on a call whose answer slice is long enough. `changed`: `table` is the table after it; `moved`: `states` are the states. */
typedef struct {
    uint32_t number;
    uint64_t detail;
    bool changed;
    uint32_t table[TABLE];
    bool moved;
    uint32_t states[STATES];
    size_t listed;
    union {
        uint32_t words[MOST_WORDS];
        uint8_t text[4 * MOST_WORDS];
    } out;
} verdict;

/* Reads a table and says whether it is well formed. */
void judge_table(const uint32_t *table, size_t words, content *c);

/* The place of a live vertex or hyperedge, or -1. */
int place_of_vertex(const content *c, uint32_t number);
int place_of_hyperedge(const content *c, uint32_t number);

/* The verdict on the function of that number in the list of functions.h; the answer slice is not looked at. */
void judge(int function, const content *c, const arguments *a, verdict *v);
#endif
