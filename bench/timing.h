/* Median and least time of a call, over rounds of several calls each. */
#ifndef TIMING_H
#define TIMING_H
#include <stdio.h>
#include <stdlib.h>
#include <time.h>

enum { MOST_ROUNDS = 801, FEWEST_ROUNDS = 21 };

static double times[MOST_ROUNDS];
static int rounds, calls;

static double now_ns(void) {
    struct timespec t;
    clock_gettime(CLOCK_MONOTONIC, &t);
    return (double)t.tv_sec * 1e9 + (double)t.tv_nsec;
}

/* 801 rounds of 20 calls; a call of over 200 us goes by itself, in as many rounds as a second and a half allows, and 21 at least. */
static void plan(double one_ns) {
    calls = one_ns > 200e3 ? 1 : 20;
    double fit = 1.5e9 / (one_ns * calls);
    rounds = fit > MOST_ROUNDS ? MOST_ROUNDS : fit < FEWEST_ROUNDS ? FEWEST_ROUNDS : (int)fit | 1;
}

static int by_value(const void *a, const void *b) {
    double x = *(const double *)a, y = *(const double *)b;
    return (x > y) - (x < y);
}

static void table_head(void) {
    printf("%-32s %-34s %9s %9s %9s  %s\n", "what", "table", "median", "least", "limit", "median/limit");
}

static void table_row(const char *what, const char *table, double limit_ns) {
    qsort(times, (size_t)rounds, sizeof *times, by_value);
    double median = times[rounds / 2];
    printf("%-32s %-34s %9.0f %9.0f %9.0f  %4.2f\n", what, table, median, times[0], limit_ns, median / limit_ns);
}

/* Fills `times` with the time of a call, each round's mean. */
#define MEASURE(call)                                  \
    do {                                               \
        double first = now_ns();                       \
        call;                                          \
        plan(now_ns() - first);                        \
        for (int round = 0; round < rounds; round++) { \
            double began = now_ns();                   \
            for (int k = 0; k < calls; k++) {          \
                call;                                  \
                __asm__ volatile("" ::: "memory");     \
            }                                          \
            times[round] = (now_ns() - began) / calls; \
        }                                              \
    } while (0);

/* A row for a call. */
#define TIME(what, table, limit_ns, call)    \
    do {                                     \
        MEASURE(call)                        \
        table_row(what, table, limit_ns);    \
    } while (0)
#endif
