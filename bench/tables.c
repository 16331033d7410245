/* Times the test of a table. */
#include <stdbool.h>
#include <stdint.h>
#include "tables.h"
#include "timing.h"

bool timed_well_formed(const uint32_t *table, size_t words);

static uint32_t table[WORDS];

static void one(const char *name, void (*fill)(uint32_t *), double limit_ns) {
    fill(table);
    if (!timed_well_formed(table, WORDS)) {
        printf("%s: not well formed\n", name);
        exit(1);
    }
    volatile bool answer = false;
    TIME("test of the table", name, limit_ns, answer = timed_well_formed(table, WORDS));
    (void)answer;
}

int main(void) {
    puts("Full tables: 256 vertices, 192 hyperedges of 32 members. Nanoseconds a call.");
    table_head();
    one("0 to 255, next 256", fill_dense, 4000);
    one("gaps of 1 to 1,000", fill_gaps, 30000);
    one("equal modulo 1,024", fill_equal_remainders, 30000);
    one("two heaps at the ends", fill_two_heaps, 30000);
    one("one place by multiplied remainder", fill_one_place, 30000);
    return 0;
}
