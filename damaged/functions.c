/* The calls of the list in functions.h. */
#include "functions.h"

#define T a->table, a->words
#define S a->states, a->state_words
#define X ((vs_vertex){a->x})
#define Y ((vs_vertex){a->y})
#define E ((vs_hyperedge){a->x})
#define L a->list, a->count
#define R a->tray, a->records
#define O a->out, a->room

#define CALL_OF(name, takes, words) \
    static vs_reply call_##name(const arguments *a) { return vs_##name words; }
FUNCTIONS(CALL_OF)

#define ENTRY_OF(name, takes, words) {#name, takes, call_##name},
const function functions[COUNT_OF_FUNCTIONS] = {FUNCTIONS(ENTRY_OF)};
