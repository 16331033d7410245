/* Throws damaged input at every function of the header and holds each answer against the judge's: number, detail, the table's
 * words, the states' words, the answer slice's words. The slices that are lent end where the memory ends, so that a word too far is a fault. */
#define _DEFAULT_SOURCE
#include <stdio.h>
#include <stdlib.h>
#include <string.h>
#include <sys/mman.h>
#include <unistd.h>
#include "judge.h"
#include "tables.h"

enum { MARGIN = 64, PAINT = 0xA5, NUMBERS_OF_ANSWERS = 21, MOST_SHOWN = 20, MOST_LIST = 8000, MOST_TEXT = 80000, LONGEST_TRIED = 400 };

static uint64_t counts[COUNT_OF_FUNCTIONS][NUMBERS_OF_ANSWERS], differing[COUNT_OF_FUNCTIONS];
static int shown;
static const char *section;

/* ---- Lent memory */

static uint8_t *table_end, *states_end, *list_end, *tray_end, *text_end, *out_end;
static uint8_t painted[4 * MOST_WORDS + MARGIN];

/* The end of so many bytes behind which no memory is. */
static uint8_t *memory(size_t bytes) {
    size_t page = (size_t)sysconf(_SC_PAGESIZE), size = (bytes + MARGIN + page - 1) / page * page;
    uint8_t *at = mmap(NULL, size + page, PROT_READ | PROT_WRITE, MAP_PRIVATE | MAP_ANONYMOUS, -1, 0);
    if (at == MAP_FAILED || mprotect(at + size, page, PROT_NONE) != 0) {
        perror("memory");
        exit(2);
    }
    memset(at, PAINT, size);
    return at + size;
}

/* ---- A table that is lent, and what it holds */

static uint32_t kept[2 * TABLE], kept_states[2 * STATES];
static arguments lent;
static content held;

static void place_table(void) { memcpy(lent.table, kept, 4 * lent.words); }

static void place_states(void) { memcpy(lent.states, kept_states, 4 * lent.state_words); }

static void lend_states(const uint32_t *states, size_t words) {
    memcpy(kept_states, states, 4 * words);
    lent.state_words = words;
    lent.states = (uint32_t *)(states_end - 4 * words);
    memset((uint8_t *)lent.states - MARGIN, PAINT, MARGIN);
    place_states();
}

/* States that fit a table of so many vertices, of every kind. */
static void lend_mixed_states(uint32_t vertices) {
    uint32_t states[STATES] = {0};
    for (uint32_t i = 0; i < vertices && i < STATES; i++)
        states[i] = (2 * i + i / 3) % 3;
    lend_states(states, STATES);
}

/* A table, and with it states that fit as many vertices as it says. */
static void lend(const uint32_t *table, size_t words) {
    memset(kept, 0, sizeof kept);
    memcpy(kept, table, 4 * (words < TABLE ? words : TABLE));
    lent.words = words;
    lent.table = (uint32_t *)(table_end - 4 * words);
    memset((uint8_t *)lent.table - MARGIN, PAINT, MARGIN);
    place_table();
    judge_table(lent.table, words, &held);
    lend_mixed_states(words > 2 ? kept[2] : 0);
}

static void lend_list(const uint32_t *list, size_t count) {
    lent.list = (uint32_t *)(list_end - 4 * count);
    lent.count = count;
    if (count > 0)
        memcpy(list_end - 4 * count, list, 4 * count);
}

static void lend_tray(const vs_withdrawal *tray, size_t records) {
    size_t bytes = records * sizeof *tray;
    lent.tray = (vs_withdrawal *)(tray_end - bytes);
    lent.records = records;
    if (records > 0)
        memcpy(tray_end - bytes, tray, bytes);
}

static void lend_text(const uint8_t *text, size_t bytes) {
    lent.text = text_end - bytes;
    lent.bytes = bytes;
    if (bytes > 0)
        memcpy(text_end - bytes, text, bytes);
}

/* ---- A call, held against the verdict */

static verdict verdict_is;

static bool same_table(bool done) {
    const uint32_t *expected = done && verdict_is.changed ? verdict_is.table : kept;
    return memcmp(lent.table, expected, 4 * lent.words) == 0 && memcmp((uint8_t *)lent.table - MARGIN, painted, MARGIN) == 0;
}

static bool same_states(bool done) {
    const uint32_t *expected = done && verdict_is.moved ? verdict_is.states : kept_states;
    return memcmp(lent.states, expected, 4 * lent.state_words) == 0 && memcmp((uint8_t *)lent.states - MARGIN, painted, MARGIN) == 0;
}

static bool same_out(size_t written, size_t room) {
    const uint8_t *out = lent.out;
    return memcmp(out, verdict_is.out.text, written) == 0 && memcmp(out + written, painted, room - written) == 0 &&
           memcmp(out - MARGIN, painted, MARGIN) == 0;
}

static void show(int f, vs_reply r, uint32_t number, uint64_t detail, bool table, bool states, bool out) {
    if (shown++ < MOST_SHOWN)
        printf("%s: %s x=%u y=%u count=%zu records=%zu size=%zu room=%zu: %u, %llu; expected %u, %llu; table %s, states %s, slice %s\n",
               section, functions[f].name, lent.x, lent.y, lent.count, lent.records, lent.size, lent.room, r.number,
               (unsigned long long)r.detail, number, (unsigned long long)detail, table ? "right" : "wrong", states ? "right" : "wrong",
               out ? "right" : "wrong");
}

/* The call with an answer slice of that length, after the verdict was given. */
static void throw_with_room(int f, size_t room) {
    size_t unit = functions[f].takes & TEXT ? 1 : 4;
    bool lists = functions[f].takes & (OUT | TEXT);
    bool fits = verdict_is.number == 0 && verdict_is.listed <= room;
    uint32_t number = lists && verdict_is.number == 0 && !fits ? 11 : verdict_is.number;
    uint64_t detail = number == 11 ? verdict_is.listed : verdict_is.detail;
    lent.out = out_end - unit * room;
    lent.room = room;
    vs_reply r = functions[f].call(&lent);
    size_t written = number == 0 ? unit * verdict_is.listed : 0;
    bool table = same_table(number == 0), states = same_states(number == 0), out = same_out(written, unit * room);
    if (r.number != number || r.detail != detail || !table || !states || !out) {
        differing[f]++;
        show(f, r, number, detail, table, states, out);
    }
    counts[f][number]++;
    if (!out || written > 0)
        memset((uint8_t *)lent.out - MARGIN, PAINT, (out ? written : unit * room) + MARGIN);
    if (!table || verdict_is.changed)
        place_table();
    if (!states || verdict_is.moved)
        place_states();
}

static void throw_at(int f, size_t room) {
    judge(f, &held, &lent, &verdict_is);
    throw_with_room(f, room);
}

/* The call with slices too short, exact and longer: every length up to a bound, and those close to what is needed. */
static void throw_with_rooms(int f) {
    judge(f, &held, &lent, &verdict_is);
    size_t needed = verdict_is.listed;
    if (verdict_is.number != 0 || !(functions[f].takes & (OUT | TEXT))) {
        throw_with_room(f, 0);
        throw_with_room(f, 9);
        return;
    }
    for (size_t room = 0; room < needed && room < LONGEST_TRIED; room++)
        throw_with_room(f, room);
    if (needed > LONGEST_TRIED) {
        throw_with_room(f, needed / 2);
        throw_with_room(f, needed - 1);
    }
    throw_with_room(f, needed);
    throw_with_room(f, needed + 1);
    throw_with_room(f, needed + 100);
}

/* ---- Tables: small, full, full without closed walks, empty, with gaps, with no number left, with many paths of one cost, with every member
 * twice in a row */

static uint32_t small[TABLE], full[TABLE], forward[TABLE], empty[TABLE], gapped[TABLE], spent[TABLE], ties[TABLE], doubled[TABLE];

/* So many vertices and hyperedges, with numbers that lie 1 to `gap` apart, and lists of 1 to `longest` members, of vertices one after the
 * other where no steps may form a closed walk. */
static void fill_part(uint32_t *t, uint32_t n, uint32_t m, uint32_t gap, uint32_t longest, bool acyclic) {
    for (uint32_t i = 0, x = 0; i < n; i++, x += 1 + draw() % gap) {
        t[4 + 2 * i] = x;
        t[5 + 2 * i] = draw() % 9;
        t[0] = x + 1 + draw() % gap;
    }
    for (uint32_t j = 0, e = 0; j < m; j++, e += 1 + draw() % gap) {
        uint32_t *record = t + 516 + 35 * j;
        record[0] = e;
        record[1] = draw() % 5;
        record[2] = 1 + draw() % longest;
        uint32_t first = draw() % (n - longest);
        for (uint32_t i = 0; i < record[2]; i++)
            record[3 + i] = t[4 + 2 * (acyclic ? first + i : draw() % n)];
        t[1] = e + 1 + draw() % gap;
    }
    t[2] = n;
    t[3] = m;
}

/* Gives each member of the lists twice in a row. */
static void double_members(uint32_t *t) {
    for (uint32_t j = 0; j < t[3]; j++) {
        uint32_t *record = t + 516 + 35 * j;
        record[2] *= 2;
        for (uint32_t i = record[2]; i-- > 0;)
            record[3 + i] = record[3 + i / 2];
    }
}

static void fill_all(void) {
    fill_part(small, 8, 6, 1, 5, false);
    fill_part(gapped, 40, 30, 9, 32, false);
    fill_part(spent, 20, 12, 3, 4, true);
    spent[0] = spent[1] = UINT32_MAX;
    fill_part(ties, 30, 90, 2, 4, false);
    for (int j = 0; j < 90; j++)
        ties[516 + 35 * j + 1] = 1;
    fill_part(doubled, 12, 16, 2, 6, false);
    double_members(doubled);
    fill_dense(full);
    fill_ascending(forward);
}

/* ---- Arguments */

/* Numbers to ask for: live ones, one below the next that is not live (if there is one), the next, the one after it, the greatest. */
static int numbers_of(const uint32_t *live, int count, uint32_t next, uint32_t *out) {
    int some = 0;
    for (int i = 0; i < count; i++)
        if (count <= 8 || i < 2 || i == count / 2 || i == count - 1)
            out[some++] = live[i];
    for (uint32_t x = 0; x < next && x <= (uint32_t)count; x++) {
        bool is_live = false;
        for (int i = 0; i < count; i++)
            is_live |= live[i] == x;
        if (!is_live) {
            out[some++] = x;
            break;
        }
    }
    out[some++] = next;
    out[some++] = next + 1;
    out[some++] = UINT32_MAX;
    return some;
}

static uint32_t vertices[16], hyperedges[16];
static int vertices_asked, hyperedges_asked;

static void choose_numbers(void) {
    vertices_asked = numbers_of(held.vertex, held.n, held.next_vertex, vertices);
    hyperedges_asked = numbers_of(held.hyperedge, held.m, held.next_hyperedge, hyperedges);
}

/* The calls that the list in hand takes part in. */
static void throw_list(int f) {
    const uint32_t *xs = functions[f].takes & HYPEREDGE ? hyperedges : vertices;
    int count = functions[f].takes & HYPEREDGE ? hyperedges_asked : 1;
    if (functions[f].takes & OUT) {
        throw_with_rooms(f);
        return;
    }
    for (int k = 0; k < count; k++) {
        lent.x = xs[k];
        throw_at(f, 0);
    }
}

/* Lists of live numbers of many lengths; each with a missing number at each place, and with a second one behind it. */
static void throw_lists(int f) {
    static const size_t lengths[] = {0, 1, 2, 3, 4, 16, 31, 32, 33, 34, 191, 192, 193, 256, 257, 7236, MOST_LIST};
    static uint32_t list[MOST_LIST];
    bool of_vertices = functions[f].takes & MEMBERS_LIST;
    const uint32_t *live = of_vertices ? held.vertex : held.hyperedge, *asked = of_vertices ? vertices : hyperedges;
    int n = of_vertices ? held.n : held.m, all = of_vertices ? vertices_asked : hyperedges_asked;
    for (size_t k = 0; k < sizeof lengths / sizeof *lengths; k++) {
        for (size_t i = 0; i < lengths[k]; i++)
            list[i] = n == 0 ? 0 : live[(i * 7 + k) % (size_t)n];
        lend_list(list, lengths[k]);
        throw_list(f);
        for (size_t i = 0; i < lengths[k] && i < 40; i++)
            for (int missing = 1; missing <= 3 && missing <= all; missing += 2) {
                list[i] = asked[all - missing];
                list[lengths[k] - 1] = i + 1 < lengths[k] ? UINT32_MAX - 1 : list[i];
                lend_list(list, lengths[k]);
                throw_list(f);
                list[i] = list[lengths[k] - 1] = n == 0 ? 0 : live[0];
            }
    }
}

/* The list with another number at a place. */
static void throw_with(int f, const uint32_t *list, size_t count, size_t place, uint32_t number) {
    static uint32_t changed[MOST_LIST];
    memcpy(changed, list, 4 * count);
    changed[place] = number;
    lend_list(changed, count);
    throw_list(f);
}

/* A list with equal neighbours at a place: alone, with the last two equal as well, with a missing number before them, and with the same
 * member or a missing number behind them. */
static void throw_pair(int f, const uint32_t *list, size_t count, size_t at) {
    lend_list(list, count);
    throw_list(f);
    throw_with(f, list, count, count - 1, list[count - 2]);
    if (at > 0)
        throw_with(f, list, count, at - 1, UINT32_MAX);
    if (at + 2 < count) {
        throw_with(f, list, count, at + 2, list[at]);
        throw_with(f, list, count, at + 2, UINT32_MAX);
    }
}

/* Lists of live numbers with equal neighbours at each place. */
static void throw_neighbours(int f) {
    static const size_t lengths[] = {2, 3, 4, 16, 31, 32, 33, 34};
    static uint32_t list[34];
    for (size_t k = 0; k < sizeof lengths / sizeof *lengths; k++)
        for (size_t at = 0; at + 1 < lengths[k]; at++) {
            for (size_t i = 0; i < lengths[k]; i++)
                list[i] = held.n == 0 ? 0 : held.vertex[i % (size_t)held.n];
            list[at + 1] = list[at];
            throw_pair(f, list, lengths[k], at);
        }
}

/* The lists that the table has, with the weight they have and another: identical adds, unchanged updates. */
static void throw_own_lists(int f) {
    for (int j = 0; j < held.m; j++) {
        const uint32_t *record = kept + 516 + 35 * j;
        lend_list(record + 3, record[2]);
        lent.x = functions[f].takes & HYPEREDGE ? record[0] : record[1];
        throw_with_rooms(f);
        lent.x++;
        throw_with_rooms(f);
    }
}

static void throw_sizes(int f) {
    static const size_t sizes[] = {0, 1, 2, 3, 5, 31, 32, 33, 4095, 4096, 4097, 4294967296u, SIZE_MAX};
    static const uint64_t seeds[] = {0, 1, 7650297886450228676u, 18097393005032713128u, UINT64_MAX};
    for (size_t k = 0; k < sizeof sizes / sizeof *sizes; k++) {
        lent.size = sizes[k];
        lent.seed = seeds[k % 5];
        if (lent.size <= 33)
            throw_with_rooms(f);
        else {
            throw_at(f, 0);
            throw_at(f, 4096);
            throw_at(f, 4097);
            throw_at(f, 4200);
        }
    }
}

/* A merge of every two live vertices, with and without the desk; of a full table of each fifth one. */
static void throw_merges(void) {
    int step = held.n > 64 ? 5 : 1;
    for (int i = 0; i < held.n; i += step)
        for (int k = 0; k < held.n; k += step) {
            lent.x = held.vertex[i];
            lent.y = held.vertex[k];
            throw_at(F_merge_vertices, 0);
            throw_at(F_desk_merge_vertices, 0);
        }
}

/* ---- Trays */

/* What is live, as records: the vertices, then the hyperedges. */
static vs_withdrawal live[MOST_VERTICES + MOST_HYPEREDGES];
static size_t lives;

/* The tray that is made. */
static vs_withdrawal tray[MOST_LIST];

static void find_live(void) {
    lives = 0;
    for (int i = 0; i < held.n; i++)
        live[lives++] = (vs_withdrawal){VS_VERTEX_KIND, held.vertex[i]};
    for (int j = 0; j < held.m; j++)
        live[lives++] = (vs_withdrawal){VS_HYPEREDGE_KIND, held.hyperedge[j]};
}

/* Every tray is withdrawn with and without the desk. */
static void throw_tray(const vs_withdrawal *records, size_t count) {
    lend_tray(records, count);
    throw_at(F_withdraw_tray, 0);
    throw_at(F_desk_withdraw_tray, 0);
}

/* Records of both kinds with the numbers to ask for, and of other kinds with numbers that are live. */
static size_t records_asked(vs_withdrawal *out) {
    size_t some = 0;
    for (int k = 0; k < vertices_asked; k++)
        out[some++] = (vs_withdrawal){VS_VERTEX_KIND, vertices[k]};
    for (int k = 0; k < hyperedges_asked; k++)
        out[some++] = (vs_withdrawal){VS_HYPEREDGE_KIND, hyperedges[k]};
    out[some++] = (vs_withdrawal){2, vertices[0]};
    out[some++] = (vs_withdrawal){UINT32_MAX, hyperedges[0]};
    return some;
}

/* Each of them alone, and every two. */
static void throw_asked(void) {
    vs_withdrawal asked[34];
    size_t some = records_asked(asked);
    for (size_t k = 0; k < some; k++) {
        throw_tray(asked + k, 1);
        for (size_t l = 0; l < some; l++)
            throw_tray((vs_withdrawal[]){asked[k], asked[l]}, 2);
    }
}

/* The tray in hand with a record at a place that may be of another kind or not live, and with another such record at its end. */
static void throw_faulty(size_t count, size_t at) {
    const vs_withdrawal faulty[] = {{2, live[0].number},
                                    {256, live[lives - 1].number},
                                    {UINT32_MAX, live[0].number},
                                    {VS_VERTEX_KIND, held.next_vertex},
                                    {VS_VERTEX_KIND, UINT32_MAX},
                                    {VS_VERTEX_KIND, live[lives - 1].number},
                                    {VS_HYPEREDGE_KIND, held.next_hyperedge},
                                    {VS_HYPEREDGE_KIND, UINT32_MAX},
                                    {VS_HYPEREDGE_KIND, held.vertex[held.n - 1]}};
    vs_withdrawal was = tray[at], last = tray[count - 1];
    for (size_t k = 0; k < sizeof faulty / sizeof *faulty; k++) {
        tray[at] = faulty[k];
        throw_tray(tray, count);
        tray[count - 1] = at + 1 < count ? faulty[k / 2] : faulty[k];
        throw_tray(tray, count);
        tray[count - 1] = last;
        tray[at] = was;
    }
}

/* Trays of what is live, of many lengths, with repeats where they are longer than the table; each with faulty records. */
static void throw_long_trays(void) {
    static const size_t lengths[] = {0, 1, 2, 3, 16, 40, 191, 256, 448, 449, 1000, MOST_LIST};
    for (size_t k = 0; k < sizeof lengths / sizeof *lengths; k++) {
        for (size_t i = 0; i < lengths[k]; i++)
            tray[i] = live[(i * 7 + k) % lives];
        throw_tray(tray, lengths[k]);
        size_t step = lengths[k] < 100 ? 1 : lengths[k] / 5;
        for (size_t at = 0; at < lengths[k]; at += step)
            throw_faulty(lengths[k], at);
        if (lengths[k] > 0)
            throw_faulty(lengths[k], lengths[k] - 1);
    }
}

/* Each live record alone and twice; of a full table each fifth one. */
static void throw_alone(void) {
    for (size_t k = 0; k < lives; k += lives > 128 ? 5 : 1) {
        throw_tray(live + k, 1);
        throw_tray((vs_withdrawal[]){live[k], live[k]}, 2);
    }
}

/* The members of each hyperedge, which empty it: without its own record, with it behind them, and with it before them too. */
static void throw_emptied(void) {
    for (int j = 0; j < held.m; j++) {
        size_t count = 1;
        tray[0] = (vs_withdrawal){VS_HYPEREDGE_KIND, held.hyperedge[j]};
        for (int i = 0; i < held.count[j]; i++)
            tray[count++] = (vs_withdrawal){VS_VERTEX_KIND, held.vertex[held.member[j][i]]};
        tray[count] = tray[0];
        throw_tray(tray + 1, count - 1);
        throw_tray(tray + 1, count);
        throw_tray(tray, count + 1);
    }
}

/* All vertices, all hyperedges, all of both; the same from the last to the first; and each but a few that are drawn. */
static void throw_nearly_all(void) {
    throw_tray(live, (size_t)held.n);
    throw_tray(live + held.n, (size_t)held.m);
    throw_tray(live, lives);
    for (size_t k = 0; k < lives; k++)
        tray[k] = live[lives - 1 - k];
    throw_tray(tray, lives);
    for (int round = 0; round < 40; round++) {
        size_t count = 0;
        for (size_t k = 0; k < lives; k++)
            if (draw() % 16 != 0)
                tray[count++] = live[k];
        throw_tray(tray, count);
    }
}

/* Up to 60 live records that are drawn, some more than once. */
static void throw_drawn(void) {
    for (int round = 0; round < 200; round++) {
        size_t count = draw() % 61;
        for (size_t i = 0; i < count; i++)
            tray[i] = live[draw() % lives];
        throw_tray(tray, count);
    }
}

static void throw_trays(void) {
    find_live();
    throw_tray(live, 0);
    throw_asked();
    if (lives == 0)
        return;
    throw_long_trays();
    throw_alone();
    throw_emptied();
    throw_nearly_all();
    throw_drawn();
}

/* ---- Every function */

/* The function with every kind of numbers, sizes and rooms; lists and trays stay as they are lent. */
static void throw_numbers(int f) {
    static const uint32_t states[] = {0, 1, 2, 3, 4, 258, UINT32_MAX};
    int takes = functions[f].takes;
    const uint32_t *xs = takes & HYPEREDGE ? hyperedges : takes & STATE ? states : vertices;
    int some = takes & HYPEREDGE ? hyperedges_asked : takes & STATE ? 7 : takes & (VERTEX | WEIGHT) ? vertices_asked : 1;
    for (int k = 0; k < some; k++)
        for (int l = 0; l < (takes & SECOND ? vertices_asked : 1); l++) {
            lent.x = xs[k];
            lent.y = vertices[l];
            if (takes & (SIZE | WALK))
                throw_sizes(f);
            else
                throw_with_rooms(f);
        }
}

/* Every function with every kind of argument on the table in hand. */
static void throw_arguments(void) {
    choose_numbers();
    throw_trays();
    for (int f = 0; f < COUNT_OF_FUNCTIONS; f++) {
        int takes = functions[f].takes;
        if (takes & (MEMBERS_LIST | HYPEREDGES_LIST))
            throw_lists(f);
        if (takes & MEMBERS_LIST) {
            throw_neighbours(f);
            throw_own_lists(f);
        }
        if (!(takes & (MEMBERS_LIST | HYPEREDGES_LIST | TRAY)))
            throw_numbers(f);
    }
}

/* The small table's text. */
static uint8_t good_text[1000];
static size_t good_bytes;

/* Every function once on the table in hand. The arguments are good ones of the table `kept` was made from, or (`bad`) such that a later
 * refusal would come if the table's did not. */
static void throw_every(bool bad) {
    static const uint32_t good_list[] = {0, 1}, bad_list[] = {UINT32_MAX, UINT32_MAX};
    static const vs_withdrawal good_tray[] = {{VS_VERTEX_KIND, 0}, {VS_HYPEREDGE_KIND, 0}}, bad_tray[] = {{2, UINT32_MAX}};
    lent.x = bad ? UINT32_MAX : 0;
    lent.y = bad ? UINT32_MAX : 1;
    lent.size = 3;
    lend_list(bad ? bad_list : good_list, bad ? 0 : 2);
    lend_tray(bad ? bad_tray : good_tray, bad ? 1 : 2);
    lend_text(good_text, bad ? 0 : good_bytes);
    for (int f = 0; f < COUNT_OF_FUNCTIONS; f++)
        throw_at(f, bad ? 0 : 16);
}

/* ---- The release desk */

/* As many states as the table has vertices, each as said; 0 behind them. */
static void fill_states(uint32_t *states, uint32_t state) {
    for (int i = 0; i < STATES; i++)
        states[i] = i < held.n ? state : 0;
}

/* What is asked of every vertex, and every edit of a vertex or hyperedge, with states that fit: all of one kind, and drawn. */
static void throw_fitting(void) {
    uint32_t states[STATES];
    for (uint32_t kind = 0; kind < 6; kind++) {
        fill_states(states, kind);
        for (int i = 0; i < held.n && kind > 2; i++)
            states[i] = draw() % kind > 0 ? 2 : draw() % 2;
        lend_states(states, STATES);
        for (int f = 0; f < COUNT_OF_FUNCTIONS; f++)
            if (functions[f].takes & DESK && !(functions[f].takes & (MEMBERS_LIST | TRAY | READ)))
                throw_numbers(f);
        for (int i = 0; i < held.n; i++) {
            lent.x = held.vertex[i];
            throw_at(F_desk_review, 0);
            throw_at(F_desk_release, 0);
            throw_at(F_desk_state, 0);
            if (held.n < 64 || i % 5 == 0)
                throw_at(F_desk_remove_vertex, 0);
        }
    }
}

/* Releases of a reviewed vertex where all others are released but one or two. */
static void throw_held(void) {
    uint32_t states[STATES];
    int step = held.n > 64 ? 3 : 1;
    for (int x = 0; x < held.n; x += step)
        for (int u = 0; u < held.n; u += step) {
            fill_states(states, 2);
            states[x] = 1;
            if (u != x)
                states[u] = (uint32_t)(u + x) % 2;
            lend_states(states, STATES);
            lent.x = held.vertex[x];
            throw_at(F_desk_release, 0);
            if (u + 1 < held.n && u + 1 != x) {
                lent.states[u + 1] = kept_states[u + 1] = 0;
                throw_at(F_desk_release, 0);
            }
        }
}

/* Every desk function once, with arguments that are good for the table, or such that a later refusal would come. */
static void throw_at_desk(bool bad) {
    static const vs_withdrawal bad_tray[] = {{2, UINT32_MAX}};
    lent.x = bad || held.n == 0 ? UINT32_MAX : held.vertex[held.n / 2];
    lent.y = bad || held.n == 0 ? UINT32_MAX : held.vertex[0];
    lend_list(held.vertex, bad ? 0 : (size_t)held.n);
    lend_tray(bad ? bad_tray : live, bad ? 1 : lives / 2);
    lend_text(good_text, bad ? 0 : good_bytes);
    for (int f = 0; f < COUNT_OF_FUNCTIONS; f++)
        if (functions[f].takes & DESK)
            throw_at(f, bad ? 0 : MOST_VERTICES);
}

/* States that do not fit: each word changed, and slices of other lengths. */
static void throw_unfitting(void) {
    static const uint32_t words[] = {1, 2, 3, 4, 256, 0x80000000u, UINT32_MAX};
    static const size_t lengths[] = {0, 1, 2, 128, 255, 257, 512};
    uint32_t states[2 * STATES];
    for (int i = 0; i < STATES; i++)
        for (int k = i < held.n ? 2 : 0; k < 7; k += 1 + (i % 8 > 0 && i != held.n)) {
            fill_states(states, (uint32_t)k % 3);
            states[i] = words[k];
            lend_states(states, STATES);
            throw_at_desk((i + k) % 2);
        }
    for (int k = 0; k < 7; k++)
        for (uint32_t state = 0; state < 3; state++) {
            memset(states, 0, sizeof states);
            fill_states(states, state);
            lend_states(states, lengths[k]);
            throw_at_desk(false);
            throw_at_desk(true);
        }
}

/* ---- The planner's orders */

static uint32_t planned[MOST_LIST];

static void throw_order(size_t count) {
    lend_list(planned, count);
    throw_at(F_desk_accept_order, 0);
}

/* How many places step to y from a vertex that is not planned yet. */
static int waits_for[MOST_VERTICES];

static void plan(int x, int more) {
    for (int j = 0; j < held.m; j++)
        for (int i = 0; i + 1 < held.count[j]; i++)
            if (held.member[j][i] == x)
                waits_for[held.member[j][i + 1]] += more;
}

/* An order that is drawn: each time one of the vertices that need not wait, and any one where all must. */
static void plan_order(void) {
    bool done[MOST_VERTICES] = {false};
    memset(waits_for, 0, sizeof waits_for);
    for (int x = 0; x < held.n; x++)
        plan(x, 1);
    for (int k = 0; k < held.n; k++) {
        int y = (int)(draw() % (uint32_t)held.n);
        for (int tried = 0; done[y] || (tried < held.n && waits_for[y] > 0); tried++)
            y = (y + 1) % held.n;
        done[y] = true;
        plan(y, -1);
        planned[k] = held.vertex[y];
    }
}

/* The order in hand with another number at a place, and with two places exchanged. */
static void throw_changed_order(size_t count, size_t at) {
    const uint32_t was = planned[at], others[] = {held.next_vertex, UINT32_MAX, planned[0], planned[count - 1], planned[count / 2]};
    for (size_t k = 0; k < sizeof others / sizeof *others; k++) {
        planned[at] = others[k];
        throw_order(count);
    }
    planned[at] = was;
    for (size_t with = 0; with < count; with += 1 + count / 8) {
        planned[at] = planned[with];
        planned[with] = was;
        throw_order(count);
        planned[with] = planned[at];
        planned[at] = was;
    }
}

/* The order in hand, whole, cut short at each place, changed at each place, and with more behind it; of a full table at some places. */
static void throw_planned(size_t count) {
    static const size_t lengths[] = {257, 258, 7236, MOST_LIST};
    throw_order(count);
    for (size_t at = 0; at < count; at += count > 64 ? 7 : 1) {
        throw_order(at);
        throw_changed_order(count, at);
    }
    for (size_t k = count; k < MOST_LIST; k++)
        planned[k] = k % 3 == 0 || count == 0 ? UINT32_MAX : planned[k % count];
    throw_order(count + 1);
    for (int k = 0; k < 4; k++)
        throw_order(lengths[k]);
}

static void throw_orders(void) {
    for (int round = 0; round < 6; round++) {
        plan_order();
        throw_planned((size_t)held.n);
    }
    for (int i = 0; i < held.n; i++)
        planned[i] = held.vertex[i];
    throw_planned((size_t)held.n);
    for (int i = 0; i < held.n; i++)
        planned[i] = held.vertex[held.n - 1 - i];
    throw_planned((size_t)held.n);
}

/* ---- Days at the desk: one call after the other, each on what the one before left */

static void carry_on(void) {
    static uint32_t table[TABLE], states[STATES];
    memcpy(table, verdict_is.changed ? verdict_is.table : kept, sizeof table);
    memcpy(states, verdict_is.moved ? verdict_is.states : kept_states, sizeof states);
    lend(table, TABLE);
    lend_states(states, STATES);
}

static void throw_and_carry_on(int f) {
    throw_at(f, MOST_VERTICES);
    carry_on();
}

/* Every vertex is reviewed, then one that is drawn is released, then all going down an order that is drawn. */
static void throw_releases(void) {
    plan_order();
    for (int i = 0; i < held.n; i++) {
        lent.x = held.vertex[i];
        throw_and_carry_on(F_desk_review);
    }
    lent.x = held.n == 0 ? 0 : held.vertex[draw() % (uint32_t)held.n];
    throw_and_carry_on(F_desk_release);
    throw_order((size_t)held.n);
    for (int i = 0; i < held.n; i++) {
        lent.x = planned[i];
        throw_and_carry_on(F_desk_release);
        throw_at(F_desk_releasable, MOST_VERTICES);
    }
}

/* A desk function that is drawn, but not a clear or a read, with numbers that are drawn. */
static void throw_drawn_call(void) {
    uint32_t list[4], n = (uint32_t)held.n;
    int f = F_desk_add_vertex + (int)(draw() % (F_desk_releasable - F_desk_add_vertex + 1));
    if (f == F_desk_clear || f == F_desk_read_frames || n == 0)
        f = F_desk_add_vertex;
    for (int i = 0; i < 4; i++)
        list[i] = n == 0 ? 0 : held.vertex[draw() % n];
    lent.x = functions[f].takes & HYPEREDGE && held.m > 0 ? held.hyperedge[draw() % (uint32_t)held.m] : list[0];
    lent.y = list[1];
    lend_list(list, 1 + draw() % 4);
    lend_tray((vs_withdrawal[]){{VS_VERTEX_KIND, list[0]}, {VS_VERTEX_KIND, list[2]}}, draw() % 3);
    throw_and_carry_on(f);
}

static void throw_days(const uint32_t *table) {
    static const uint32_t waiting[STATES];
    for (int round = 0; round < 3; round++) {
        lend(table, TABLE);
        lend_states(waiting, STATES);
        throw_releases();
        for (int k = 0; k < 400; k++)
            throw_drawn_call();
        throw_releases();
    }
    lend(table, TABLE);
}

static void throw_desk(const uint32_t *table) {
    throw_fitting();
    throw_held();
    throw_unfitting();
    lend(table, TABLE);
    throw_orders();
    throw_days(table);
}

/* ---- Damage */

static void lend_changed(const uint32_t *table, int word, uint32_t value) {
    static uint32_t changed[TABLE];
    memcpy(changed, table, sizeof changed);
    changed[word] = value;
    lend(changed, TABLE);
}

/* The limit of what a word may hold. */
static uint32_t limit_of(const uint32_t *t, int word) {
    if (word < 4)
        return word < 2 ? UINT32_MAX - 1 : word == 2 ? MOST_VERTICES : MOST_HYPEREDGES;
    if (word < 516)
        return t[0];
    int field = (word - 516) % 35;
    return field == 0 ? t[1] : field == 2 ? MOST_MEMBERS : t[0];
}

/* A changed table that is still well formed: all functions on a small one, else the test alone and the functions in turn. */
static void throw_still_formed(bool all, unsigned turn) {
    if (all) {
        throw_every(false);
        return;
    }
    throw_at(F_is_empty, 0);
    lend_list(held.hyperedge, 2);
    lent.x = held.n > 0 ? held.vertex[turn % (unsigned)held.n] : 0;
    lent.y = held.n > 0 ? held.vertex[turn / 2 % (unsigned)held.n] : 0;
    lend_tray((vs_withdrawal[]){{VS_VERTEX_KIND, lent.x}, {VS_VERTEX_KIND, lent.y}, {VS_HYPEREDGE_KIND, held.hyperedge[0]}}, 3);
    throw_at((int)(turn % COUNT_OF_FUNCTIONS), turn / COUNT_OF_FUNCTIONS % 2 ? MOST_WORDS : 16);
}

/* Each word in turn, changed to several values. */
static void throw_changed_words(const uint32_t *table, bool all) {
    static unsigned turn;
    for (int word = 0; word < TABLE; word++) {
        uint32_t was = table[word], limit = limit_of(table, word);
        uint32_t values[] = {0, was + 1, was - 1, limit, limit + 1, UINT32_MAX};
        for (int k = 0; k < 6; k++) {
            bool again = values[k] == was;
            for (int l = 0; l < k; l++)
                again |= values[l] == values[k];
            if (again)
                continue;
            lend_changed(table, word, values[k]);
            if (held.formed)
                throw_still_formed(all, turn++);
            else
                throw_every(word % 2);
        }
    }
}

/* The four words of the head changed together. */
static void throw_changed_heads(const uint32_t *table) {
    static uint32_t changed[TABLE];
    static const uint32_t steps[] = {0, 1, UINT32_MAX, 256, UINT32_MAX / 2};
    memcpy(changed, table, sizeof changed);
    for (int k = 0; k < 625; k++) {
        int rest = k;
        for (int word = 0; word < 4; word++, rest /= 5)
            changed[word] = table[word] + steps[rest % 5];
        lend(changed, TABLE);
        if (!held.formed)
            throw_every(k % 2);
    }
}

static void throw_wrong_lengths(const uint32_t *table) {
    static const size_t lengths[] = {0, 1, 2, 3, 4, 5, 515, 516, 517, 551, 7200, 7201, 7234, 7235, 7237, 7271, 14472};
    for (size_t k = 0; k < sizeof lengths / sizeof *lengths; k++) {
        lend(table, lengths[k]);
        throw_every(false);
        throw_every(true);
    }
}

/* ---- Damaged text */

static uint8_t whole[MOST_TEXT], damaged[MOST_TEXT + 2];
static size_t whole_bytes;

static void write_whole(void) {
    judge(F_write_frames, &held, &lent, &verdict_is);
    whole_bytes = verdict_is.listed;
    memcpy(whole, verdict_is.out.text, whole_bytes);
}

/* Each eighth text is read through the desk too. */
static void throw_text(const uint8_t *text, size_t bytes) {
    static unsigned turn;
    lend_text(text, bytes);
    throw_at(F_read_frames, 0);
    if (turn++ % 8 == 0)
        throw_at(F_desk_read_frames, 0);
}

/* The text with `put` in place of the `gone` bytes at a place. */
static void throw_spliced(size_t at, size_t gone, const void *put, size_t bytes) {
    memcpy(damaged, whole, at);
    memcpy(damaged + at, put, bytes);
    memcpy(damaged + at + bytes, whole + at + gone, whole_bytes - at - gone);
    throw_text(damaged, whole_bytes - gone + bytes);
}

/* A character at a place changed, left out, put in; the text cut off before it. */
static void throw_characters(size_t at) {
    const uint8_t others[] = {'0', '1', '9', 'A', 'F', 'G', 'a', 'f', '\n', '\r', ' ', 0, 255, (uint8_t)(whole[at] + 1), (uint8_t)(whole[at] - 1)};
    for (size_t k = 0; k < sizeof others; k++)
        throw_spliced(at, 1, others + k, 1);
    throw_spliced(at, 1, "", 0);
    throw_spliced(at, 0, "0", 1);
    throw_spliced(at, 0, "\n", 1);
    throw_text(whole, at);
}

static int digit_of(uint8_t c) { return c <= '9' ? c - '0' : c - 'A' + 10; }

/* Adds to the byte at a place, and takes the same from the last byte of its line, so that the line's sum stays right. */
static void throw_resealed(size_t at, size_t line_end, int more) {
    const char *digits = "0123456789ABCDEF";
    memcpy(damaged, whole, whole_bytes);
    for (int k = 0; k < 2; k++) {
        uint8_t *byte = damaged + (k == 0 ? at : line_end - 2);
        int value = (16 * digit_of(byte[0]) + digit_of(byte[1]) + (k == 0 ? more : 256 - more)) % 256;
        byte[0] = (uint8_t)digits[value / 16];
        byte[1] = (uint8_t)digits[value % 16];
    }
    throw_text(damaged, whole_bytes);
}

/* The line left out, given twice, and each of its bytes changed. */
static void throw_line(size_t begin, size_t end) {
    static const int steps[] = {1, 2, 16, 31, 32, 33, 128, 240, 254, 255};
    throw_spliced(begin, end + 1 - begin, "", 0);
    throw_spliced(begin, 0, whole + begin, end + 1 - begin);
    for (size_t at = begin; at + 2 < end; at += 2)
        for (int k = 0; k < 10; k++)
            throw_resealed(at, end, steps[k]);
}

static void throw_texts(const uint32_t *table) {
    lend(table, TABLE);
    write_whole();
    throw_text(whole, whole_bytes);
    throw_spliced(whole_bytes, 0, "0", 1);
    throw_spliced(whole_bytes, 0, "\n", 1);
    for (size_t at = 0; at < whole_bytes; at += whole_bytes > 9000 ? 199 : 1)
        throw_characters(at);
    for (size_t begin = 0, end = 0; begin < whole_bytes; begin = end + 1) {
        for (end = begin; whole[end] != '\n';)
            end++;
        if (whole_bytes < 9000 || begin % 50 == 3)
            throw_line(begin, end);
    }
}

/* ---- The report */

/* Whether some function has an answer of the number. */
static bool is_answer(int number) { return number != 16; }

static int report(void) {
    uint64_t calls = 0, wrong = 0;
    printf("%-36s", "function \\ answer");
    for (int k = 0; k < NUMBERS_OF_ANSWERS; k++)
        if (is_answer(k))
            printf(" %7d", k);
    printf("  %s\n", "differing");
    for (int f = 0; f < COUNT_OF_FUNCTIONS; f++) {
        printf("%-36s", functions[f].name);
        for (int k = 0; k < NUMBERS_OF_ANSWERS; k++)
            if (is_answer(k)) {
                printf(" %7llu", (unsigned long long)counts[f][k]);
                calls += counts[f][k];
            }
        printf("  %llu\n", (unsigned long long)differing[f]);
        wrong += differing[f];
    }
    printf("%llu calls, %llu differing\n", (unsigned long long)calls, (unsigned long long)wrong);
    return wrong != 0;
}

int main(void) {
    struct {
        const char *name;
        uint32_t *table;
        bool all;
    } tables[] = {{"small", small, true},      {"full", full, false},   {"empty", empty, true}, {"gapped", gapped, false},
                  {"forward", forward, false}, {"spent", spent, false}, {"ties", ties, false},  {"doubled", doubled, false}};
    memset(painted, PAINT, sizeof painted);
    table_end = memory(4 * 2 * TABLE);
    states_end = memory(4 * 2 * STATES);
    list_end = memory(4 * MOST_LIST);
    tray_end = memory(sizeof(vs_withdrawal) * MOST_LIST);
    text_end = memory(MOST_TEXT);
    out_end = memory(4 * MOST_WORDS);
    fill_all();
    lend(small, TABLE);
    write_whole();
    good_bytes = whole_bytes;
    memcpy(good_text, whole, good_bytes);
    lend_text(good_text, good_bytes);
    for (size_t k = 0; k < sizeof tables / sizeof *tables; k++) {
        section = tables[k].name;
        lend(tables[k].table, TABLE);
        if (!held.formed) {
            printf("%s: not well formed\n", section);
            return 2;
        }
        throw_arguments();
        throw_merges();
        throw_desk(tables[k].table);
        throw_texts(tables[k].table);
        throw_wrong_lengths(tables[k].table);
        if (k < 4) {
            throw_changed_heads(tables[k].table);
            throw_changed_words(tables[k].table, tables[k].all);
        }
    }
    return report();
}
