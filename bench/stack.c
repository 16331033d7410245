/* How much stack each call needs: it runs on a stack of its own, painted before, and the lowest byte that lost its paint is looked for. */
#define _DEFAULT_SOURCE
#include <stdint.h>
#include <stdio.h>
#include <string.h>
#include <ucontext.h>
#include "functions.h"
#include "tables.h"

enum { STACK = 1 << 20, PAINT = 0xA5, ROOM = 140000 };

static uint8_t stack[STACK], *called_at;
static uint32_t tables[4][WORDS], table[WORDS], states[VERTICES], list[MEMBERS], out[ROOM];
static uint8_t text[ROOM];
static vs_withdrawal tray[2 * MEMBERS];
static arguments lent = {.table = table, .words = WORDS, .states = states, .state_words = VERTICES, .list = list, .tray = tray,
                         .size = 4096, .seed = 1, .text = text, .out = out, .room = ROOM};
static ucontext_t back, apart;
static int running;

/* Every vertex but the last steps to the next alone: a depth-first search goes 256 deep. */
static void fill_chain(uint32_t *t) {
    fill_dense(t);
    for (int j = 0; j < HYPEREDGES; j++) {
        int first = (MEMBERS - 1) * (j % 9);
        first = first < VERTICES - MEMBERS ? first : VERTICES - MEMBERS;
        for (int i = 0; i < MEMBERS; i++)
            t[HYPEREDGES_AT + RECORD * j + 3 + i] = (uint32_t)(first + i);
    }
}

static void run_apart(void) {
    called_at = __builtin_frame_address(0);
    functions[running].call(&lent);
}

/* The bytes that the call needs below the frame that makes it. */
static size_t needed(const uint32_t *from) {
    memcpy(table, from, sizeof table);
    for (int i = 0; i < VERTICES; i++)
        states[i] = 1;
    memset(stack, PAINT, sizeof stack);
    getcontext(&apart);
    apart.uc_stack.ss_sp = stack;
    apart.uc_stack.ss_size = sizeof stack;
    apart.uc_link = &back;
    makecontext(&apart, run_apart, 0);
    swapcontext(&back, &apart);
    uint8_t *lowest = stack;
    while (*lowest == PAINT)
        lowest++;
    return (size_t)(called_at - lowest);
}

/* Arguments that are good for the table: its first and its last vertex, a list of its vertices or hyperedges, a tray of both, its text. */
static void lend(const uint32_t *t, int takes) {
    int hyperedges = takes & HYPEREDGES_LIST, at = hyperedges ? HYPEREDGES_AT : VERTICES_AT, record = hyperedges ? RECORD : 2;
    lent.x = t[takes & HYPEREDGE ? HYPEREDGES_AT : VERTICES_AT];
    lent.y = t[VERTICES_AT + 2 * (VERTICES - 1)];
    lent.count = MEMBERS;
    lent.bytes = vs_write_frames(t, WORDS, text, sizeof text).detail;
    lent.records = 2 * MEMBERS;
    for (int i = 0; i < MEMBERS; i++) {
        list[i] = t[at + record * i];
        tray[2 * i] = (vs_withdrawal){VS_VERTEX_KIND, t[VERTICES_AT + 2 * i]};
        tray[2 * i + 1] = (vs_withdrawal){VS_HYPEREDGE_KIND, t[HYPEREDGES_AT + RECORD * i]};
    }
}

int main(void) {
    static const char *names[] = {"full", "ascending", "chain", "gaps"};
    size_t most = 0;
    fill_dense(tables[0]);
    fill_ascending(tables[1]);
    fill_chain(tables[2]);
    fill_gaps(tables[3]);
    printf("%-36s", "bytes of stack, by table");
    for (int k = 0; k < 4; k++)
        printf(" %10s", names[k]);
    puts("");
    for (running = 0; running < COUNT_OF_FUNCTIONS; running++) {
        printf("%-36s", functions[running].name);
        for (int k = 0; k < 4; k++) {
            lend(tables[k], functions[running].takes);
            size_t bytes = needed(tables[k]);
            most = bytes > most ? bytes : most;
            printf(" %10zu", bytes);
        }
        puts("");
    }
    printf("%-36s %10zu\n", "most", most);
    return 0;
}
