/* Tables to time on. Each is full: 256 vertices, 192 hyperedges of 32 members, every word drawn from a fixed sequence. */
#ifndef TABLES_H
#define TABLES_H
#include <stdint.h>
#include <string.h>

enum { WORDS = 7236, VERTICES = 256, HYPEREDGES = 192, MEMBERS = 32, VERTICES_AT = 4, HYPEREDGES_AT = 516, RECORD = 35 };

static uint32_t drawn = 2463534242u;

static uint32_t draw(void) {
    drawn ^= drawn << 13;
    drawn ^= drawn >> 17;
    drawn ^= drawn << 5;
    return drawn;
}

/* A full table whose vertex at place i has the number numbers[i]; next is the next vertex number. */
static inline void fill_table(uint32_t *t, const uint32_t *numbers, uint32_t next) {
    drawn = 2463534242u;
    memset(t, 0, WORDS * sizeof *t);
    t[0] = next;
    t[1] = HYPEREDGES;
    t[2] = VERTICES;
    t[3] = HYPEREDGES;
    for (int i = 0; i < VERTICES; i++) {
        t[VERTICES_AT + 2 * i] = numbers[i];
        t[VERTICES_AT + 2 * i + 1] = draw();
    }
    for (int j = 0; j < HYPEREDGES; j++) {
        uint32_t *record = t + HYPEREDGES_AT + RECORD * j;
        record[0] = (uint32_t)j;
        record[1] = draw() % 1000;
        record[2] = MEMBERS;
        for (int i = 0; i < MEMBERS; i++)
            record[3 + i] = numbers[draw() % VERTICES];
    }
}

/* Vertex numbers 0 to 255, the next one 256: as many live as were given. */
static inline void fill_dense(uint32_t *t) {
    uint32_t numbers[VERTICES];
    for (int i = 0; i < VERTICES; i++)
        numbers[i] = (uint32_t)i;
    fill_table(t, numbers, VERTICES);
}

/* The same numbers, and every list strictly ascending: no steps form a closed walk. */
static inline void fill_ascending(uint32_t *t) {
    fill_dense(t);
    for (int j = 0; j < HYPEREDGES; j++) {
        uint32_t *record = t + HYPEREDGES_AT + RECORD * j;
        char listed[VERTICES] = {0};
        for (int i = 0; i < MEMBERS;) {
            uint32_t x = draw() % VERTICES;
            i += !listed[x];
            listed[x] = 1;
        }
        for (int x = 0, i = 0; x < VERTICES; x++)
            if (listed[x])
                record[3 + i++] = (uint32_t)x;
    }
}

/* Numbers with gaps of 1 to 1,000. */
static inline void fill_gaps(uint32_t *t) {
    uint32_t numbers[VERTICES], x = 0;
    drawn = 88172645u;
    for (int i = 0; i < VERTICES; i++)
        numbers[i] = x += 1 + draw() % 1000;
    fill_table(t, numbers, x + 1);
}

/* Numbers that are equal modulo 1,024. */
static inline void fill_equal_remainders(uint32_t *t) {
    uint32_t numbers[VERTICES];
    for (int i = 0; i < VERTICES; i++)
        numbers[i] = 7 + 1024 * (uint32_t)i;
    fill_table(t, numbers, numbers[VERTICES - 1] + 1);
}

/* Numbers close together at both ends of the range. */
static inline void fill_two_heaps(uint32_t *t) {
    uint32_t numbers[VERTICES];
    for (int i = 0; i < VERTICES; i++)
        numbers[i] = i < 128 ? (uint32_t)i : 4294967294u - 255u + (uint32_t)i;
    fill_table(t, numbers, 4294967295u);
}

/* Numbers that a multiplied remainder puts into one place of 1,024. */
static inline void fill_one_place(uint32_t *t) {
    uint32_t numbers[VERTICES];
    int i = 0;
    for (uint32_t x = 1; i < VERTICES; x++)
        if ((uint32_t)(x * 2654435769u) >> 22 == 5)
            numbers[i++] = x;
    fill_table(t, numbers, numbers[VERTICES - 1] + 1);
}

/* The dense table with nested lists: each six records have one set, strictly within the sets of all later ones. */
static inline void fill_nested(uint32_t *t) {
    fill_dense(t);
    for (int j = 0; j < HYPEREDGES; j++)
        for (int i = 0; i < MEMBERS; i++)
            t[HYPEREDGES_AT + RECORD * j + 3 + i] = VERTICES - MEMBERS + (uint32_t)(i <= j / 6 ? i : j / 6);
}
#endif
