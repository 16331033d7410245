/* The judge: the rules, function by function in the order of the header. */
#include "judge.h"
#include <string.h>

#define EACH(i, count) for (int i = 0; i < (count); i++)
#define EACH_STEP(c, j, i) EACH(j, (c)->m) for (int i = 0; i + 1 < (c)->count[j]; i++)

/* ---- Tables */

static bool all_zero(const uint32_t *from, const uint32_t *end) {
    while (from < end)
        if (*from++ != 0)
            return false;
    return true;
}

static int place_of(const uint32_t *numbers, int count, uint32_t number) {
    EACH(i, count)
        if (numbers[i] == number)
            return i;
    return -1;
}

int place_of_vertex(const content *c, uint32_t number) { return place_of(c->vertex, c->n, number); }

int place_of_hyperedge(const content *c, uint32_t number) { return place_of(c->hyperedge, c->m, number); }

static bool ascending_below(const uint32_t *numbers, int count, uint32_t next) {
    EACH(i, count)
        if (numbers[i] >= next || (i > 0 && numbers[i - 1] >= numbers[i]))
            return false;
    return true;
}

static bool read_hyperedge(const uint32_t *record, content *c, int j) {
    c->hyperedge[j] = record[0];
    c->weight[j] = record[1];
    if (record[2] < 1 || record[2] > MOST_MEMBERS)
        return false;
    c->count[j] = (int)record[2];
    EACH(i, c->count[j])
        if ((c->member[j][i] = place_of_vertex(c, record[3 + i])) < 0)
            return false;
    return all_zero(record + 3 + record[2], record + 35);
}

static bool read_table(const uint32_t *t, content *c) {
    if (t[2] > MOST_VERTICES || t[3] > MOST_HYPEREDGES)
        return false;
    c->next_vertex = t[0];
    c->next_hyperedge = t[1];
    c->n = (int)t[2];
    c->m = (int)t[3];
    EACH(i, c->n) {
        c->vertex[i] = t[4 + 2 * i];
        c->vertex_weight[i] = t[5 + 2 * i];
    }
    if (!ascending_below(c->vertex, c->n, c->next_vertex) || !all_zero(t + 4 + 2 * c->n, t + 516))
        return false;
    EACH(j, c->m)
        if (!read_hyperedge(t + 516 + 35 * j, c, j))
            return false;
    return ascending_below(c->hyperedge, c->m, c->next_hyperedge) && all_zero(t + 516 + 35 * c->m, t + TABLE);
}

void judge_table(const uint32_t *table, size_t words, content *c) {
    c->sized = words == TABLE;
    c->formed = c->sized && read_table(table, c);
}

static void write_table(const content *c, verdict *v) {
    uint32_t *t = v->table;
    memset(t, 0, sizeof v->table);
    t[0] = c->next_vertex;
    t[1] = c->next_hyperedge;
    t[2] = (uint32_t)c->n;
    t[3] = (uint32_t)c->m;
    EACH(i, c->n) {
        t[4 + 2 * i] = c->vertex[i];
        t[5 + 2 * i] = c->vertex_weight[i];
    }
    EACH(j, c->m) {
        uint32_t *record = t + 516 + 35 * j;
        record[0] = c->hyperedge[j];
        record[1] = c->weight[j];
        record[2] = (uint32_t)c->count[j];
        EACH(i, c->count[j])
            record[3 + i] = c->vertex[c->member[j][i]];
    }
    v->changed = true;
}

/* ---- Answers */

static void say(verdict *v, uint32_t number, uint64_t detail) {
    v->number = number;
    v->detail = detail;
}

/* The answer of a judge that has nothing more to say. */
#define SAY(number, detail)      \
    do {                         \
        say(v, number, detail);  \
        return;                  \
    } while (0)

static void put(verdict *v, uint32_t word) { v->out.words[v->listed++] = word; }

/* Judges that x is live, or says 3. */
static int live_vertex(const content *c, uint32_t x, verdict *v) {
    int place = place_of_vertex(c, x);
    if (place < 0)
        say(v, 3, x);
    return place;
}

static int live_hyperedge(const content *c, uint32_t e, verdict *v) {
    int place = place_of_hyperedge(c, e);
    if (place < 0)
        say(v, 4, e);
    return place;
}

static void put_marked(const content *c, const bool *marked, verdict *v) {
    EACH(i, c->n)
        if (marked[i])
            put(v, c->vertex[i]);
}

static void put_counted(const content *c, const bool *marked, verdict *v) {
    uint32_t count = 0;
    EACH(i, c->n)
        count += marked[i];
    put(v, count);
    put_marked(c, marked, v);
}

static bool lists(const content *c, int j, int x) {
    EACH(i, c->count[j])
        if (c->member[j][i] == x)
            return true;
    return false;
}

/* ---- Edits */

static void judge_add_vertex(const content *c, const arguments *a, verdict *v) {
    if (c->n == MOST_VERTICES)
        SAY(7, 0);
    if (c->next_vertex == UINT32_MAX)
        SAY(8, 0);
    content after = *c;
    after.vertex[after.n] = after.next_vertex++;
    after.vertex_weight[after.n++] = a->x;
    write_table(&after, v);
    say(v, 0, c->next_vertex);
}

/* 2, 6, 3 and 20 for a list of members; whether none of them is said. */
static bool good_members(const content *c, const arguments *a, verdict *v) {
    if (a->count == 0)
        return say(v, 2, a->x), false;
    if (a->count > MOST_MEMBERS)
        return say(v, 6, a->count), false;
    EACH(i, (int)a->count)
        if (live_vertex(c, a->list[i], v) < 0)
            return false;
    EACH(i, (int)a->count - 1)
        if (a->list[i] == a->list[i + 1])
            return say(v, 20, a->list[i]), false;
    return true;
}

static bool same_list(const content *c, int j, const arguments *a) {
    if ((size_t)c->count[j] != a->count)
        return false;
    EACH(i, c->count[j])
        if (c->vertex[c->member[j][i]] != a->list[i])
            return false;
    return true;
}

static void set_list(content *c, int j, const arguments *a) {
    c->count[j] = (int)a->count;
    EACH(i, c->count[j])
        c->member[j][i] = place_of_vertex(c, a->list[i]);
}

static void judge_add_hyperedge(const content *c, const arguments *a, verdict *v) {
    if (!good_members(c, a, v))
        return;
    EACH(j, c->m)
        if (c->weight[j] == a->x && same_list(c, j, a))
            SAY(0, c->hyperedge[j]);
    if (c->m == MOST_HYPEREDGES)
        SAY(7, 0);
    if (c->next_hyperedge == UINT32_MAX)
        SAY(8, 0);
    content after = *c;
    after.hyperedge[after.m] = after.next_hyperedge++;
    after.weight[after.m] = a->x;
    set_list(&after, after.m++, a);
    write_table(&after, v);
    say(v, 0, c->next_hyperedge);
}

static void judge_update_hyperedge_vertices(const content *c, const arguments *a, verdict *v) {
    if (!good_members(c, a, v))
        return;
    int j = live_hyperedge(c, a->x, v);
    if (j < 0)
        return;
    if (same_list(c, j, a))
        SAY(5, a->x);
    content after = *c;
    set_list(&after, j, a);
    write_table(&after, v);
}

static void drop_hyperedge(content *c, int gone) {
    c->m--;
    for (int j = gone; j < c->m; j++) {
        c->hyperedge[j] = c->hyperedge[j + 1];
        c->weight[j] = c->weight[j + 1];
        c->count[j] = c->count[j + 1];
        memcpy(c->member[j], c->member[j + 1], sizeof c->member[j]);
    }
}

/* The vertex record alone; the members are places that the caller has set anew. */
static void drop_vertex(content *c, int gone) {
    c->n--;
    for (int i = gone; i < c->n; i++) {
        c->vertex[i] = c->vertex[i + 1];
        c->vertex_weight[i] = c->vertex_weight[i + 1];
    }
}

/* The vertex, its places in every list, and the lists that are then empty. */
static void take_vertex_out(content *c, int gone) {
    for (int j = c->m - 1; j >= 0; j--) {
        int kept = 0;
        EACH(i, c->count[j])
            if (c->member[j][i] != gone)
                c->member[j][kept++] = c->member[j][i] - (c->member[j][i] > gone);
        c->count[j] = kept;
        if (kept == 0)
            drop_hyperedge(c, j);
    }
    drop_vertex(c, gone);
}

static void judge_remove_vertex(const content *c, const arguments *a, verdict *v) {
    int gone = live_vertex(c, a->x, v);
    if (gone < 0)
        return;
    content after = *c;
    take_vertex_out(&after, gone);
    write_table(&after, v);
}

static void judge_merge_vertices(const content *c, const arguments *a, verdict *v) {
    int stays = live_vertex(c, a->x, v);
    if (stays < 0)
        return;
    int gone = live_vertex(c, a->y, v);
    if (gone < 0)
        return;
    if (stays == gone)
        SAY(13, a->x);
    EACH_STEP(c, j, i) {
        int first = c->member[j][i], second = c->member[j][i + 1];
        if ((first == stays && second == gone) || (first == gone && second == stays))
            SAY(14, c->hyperedge[j]);
    }
    content after = *c;
    EACH(j, c->m)
        EACH(i, c->count[j]) {
            int x = c->member[j][i] == gone ? stays : c->member[j][i];
            after.member[j][i] = x - (x > gone);
        }
    drop_vertex(&after, gone);
    write_table(&after, v);
}

static void judge_remove_hyperedge(const content *c, const arguments *a, verdict *v) {
    int gone = live_hyperedge(c, a->x, v);
    if (gone < 0)
        return;
    content after = *c;
    drop_hyperedge(&after, gone);
    write_table(&after, v);
}

/* The place of what a record names, or -1. */
static int place_of_record(const content *c, vs_withdrawal r) {
    if (r.kind == 0)
        return place_of_vertex(c, r.number);
    if (r.kind == 1)
        return place_of_hyperedge(c, r.number);
    return -1;
}

/* Every record is judged first; then each is removed by itself, but for those that are gone by then. */
static void judge_withdraw_tray(const content *c, const arguments *a, verdict *v) {
    for (size_t k = 0; k < a->records; k++)
        if (place_of_record(c, a->tray[k]) < 0)
            SAY(15, k);
    content after = *c;
    for (size_t k = 0; k < a->records; k++) {
        int gone = place_of_record(&after, a->tray[k]);
        if (gone < 0)
            continue;
        if (a->tray[k].kind == 0)
            take_vertex_out(&after, gone);
        else
            drop_hyperedge(&after, gone);
    }
    write_table(&after, v);
}

static void judge_clear(const content *c, const arguments *a, verdict *v) {
    (void)c;
    (void)a;
    memset(v->table, 0, sizeof v->table);
    v->changed = true;
}

static void judge_is_empty(const content *c, const arguments *a, verdict *v) {
    (void)a;
    say(v, 0, c->n == 0);
}

/* ---- Lookups */

/* The vertices next to x by a step; `turned`: by a step to x. `full`: with the hyperedges, one for each place. */
static void judge_adjacent(const content *c, const arguments *a, verdict *v, bool turned, bool full) {
    int x = live_vertex(c, a->x, v);
    if (x < 0)
        return;
    EACH(y, c->n) {
        uint32_t places[MOST_HYPEREDGES * MOST_MEMBERS], count = 0;
        EACH_STEP(c, j, i)
            if (c->member[j][i + turned] == x && c->member[j][i + !turned] == y)
                places[count++] = c->hyperedge[j];
        if (count == 0)
            continue;
        put(v, c->vertex[y]);
        if (full) {
            put(v, count);
            EACH(k, (int)count)
                put(v, places[k]);
        }
    }
}

static void judge_get_adjacent_vertices_from(const content *c, const arguments *a, verdict *v) { judge_adjacent(c, a, v, false, false); }

static void judge_get_adjacent_vertices_to(const content *c, const arguments *a, verdict *v) { judge_adjacent(c, a, v, true, false); }

static void judge_get_full_adjacent_vertices_from(const content *c, const arguments *a, verdict *v) { judge_adjacent(c, a, v, false, true); }

static void judge_get_full_adjacent_vertices_to(const content *c, const arguments *a, verdict *v) { judge_adjacent(c, a, v, true, true); }

static void judge_degree(const content *c, const arguments *a, verdict *v, bool in) {
    int x = live_vertex(c, a->x, v);
    if (x < 0)
        return;
    EACH_STEP(c, j, i)
        v->detail += c->member[j][i + in] == x;
}

static void judge_get_vertex_degree_in(const content *c, const arguments *a, verdict *v) { judge_degree(c, a, v, true); }

static void judge_get_vertex_degree_out(const content *c, const arguments *a, verdict *v) { judge_degree(c, a, v, false); }

static void judge_get_hyperedges_connecting(const content *c, const arguments *a, verdict *v) {
    int x = live_vertex(c, a->x, v);
    int y = place_of_vertex(c, a->y);
    if (x < 0 || y < 0)
        return;
    EACH_STEP(c, j, i)
        if (c->member[j][i] == x && c->member[j][i + 1] == y)
            put(v, c->hyperedge[j]);
}

static void judge_get_hyperedges_intersections(const content *c, const arguments *a, verdict *v) {
    bool in_all[MOST_VERTICES];
    if (a->count < 2)
        SAY(10, 0);
    memset(in_all, true, sizeof in_all);
    for (size_t k = 0; k < a->count; k++) {
        int j = live_hyperedge(c, a->list[k], v);
        if (j < 0)
            return;
        EACH(x, c->n)
            in_all[x] = in_all[x] && lists(c, j, x);
    }
    put_marked(c, in_all, v);
}

static void judge_find_hyperedges_by_weight(const content *c, const arguments *a, verdict *v) {
    EACH(j, c->m)
        if (c->weight[j] == a->x)
            put(v, c->hyperedge[j]);
}

static void judge_get_full_vertex_hyperedges(const content *c, const arguments *a, verdict *v) {
    int x = live_vertex(c, a->x, v);
    if (x < 0)
        return;
    EACH(j, c->m)
        if (lists(c, j, x)) {
            put(v, (uint32_t)c->count[j]);
            EACH(i, c->count[j])
                put(v, c->vertex[c->member[j][i]]);
        }
}

static void judge_contains_vertex(const content *c, const arguments *a, verdict *v) {
    say(v, 0, place_of(c->vertex_weight, c->n, a->x) >= 0);
}

static void judge_get_vertex_neighborhood(const content *c, const arguments *a, verdict *v) {
    bool beside[MOST_VERTICES] = {false};
    int x = live_vertex(c, a->x, v);
    if (x < 0)
        return;
    EACH(j, c->m)
        if (lists(c, j, x))
            EACH(i, c->count[j])
                beside[c->member[j][i]] = c->member[j][i] != x;
    put_marked(c, beside, v);
}

static void judge_get_vertex_index(const content *c, const arguments *a, verdict *v) {
    EACH(i, c->n)
        if (c->vertex_weight[i] == a->x)
            put(v, c->vertex[i]);
}

/* ---- Plain reads */

static void judge_get_vertex_weight(const content *c, const arguments *a, verdict *v) {
    int x = live_vertex(c, a->x, v);
    if (x >= 0)
        say(v, 0, c->vertex_weight[x]);
}

static void judge_get_hyperedge_weight(const content *c, const arguments *a, verdict *v) {
    int j = live_hyperedge(c, a->x, v);
    if (j >= 0)
        say(v, 0, c->weight[j]);
}

static void judge_get_hyperedge_vertices(const content *c, const arguments *a, verdict *v) {
    int j = live_hyperedge(c, a->x, v);
    if (j < 0)
        return;
    EACH(i, c->count[j])
        put(v, c->vertex[c->member[j][i]]);
}

static void judge_get_vertices(const content *c, const arguments *a, verdict *v) {
    (void)a;
    EACH(i, c->n)
        put(v, c->vertex[i]);
}

static void judge_get_hyperedges(const content *c, const arguments *a, verdict *v) {
    (void)a;
    EACH(j, c->m)
        put(v, c->hyperedge[j]);
}

/* ---- Traversal. Steps stand in a matrix by place. */

static bool step[MOST_VERTICES][MOST_VERTICES];
static bool seen[MOST_VERTICES];
static int order[MOST_VERTICES], ordered;

static void find_steps(const content *c) {
    memset(step, 0, sizeof step);
    memset(seen, 0, sizeof seen);
    ordered = 0;
    EACH_STEP(c, j, i)
        step[c->member[j][i]][c->member[j][i + 1]] = true;
}

static void go_breadth_first(const content *c, int from) {
    memset(seen, 0, sizeof seen);
    ordered = 0;
    order[ordered++] = from;
    seen[from] = true;
    EACH(k, ordered)
        EACH(y, c->n)
            if (step[order[k]][y] && !seen[y]) {
                seen[y] = true;
                order[ordered++] = y;
            }
}

static void put_ordered(const content *c, verdict *v) {
    EACH(k, ordered)
        put(v, c->vertex[order[k]]);
}

static void go_depth_first(const content *c, int x) {
    seen[x] = true;
    order[ordered++] = x;
    EACH(y, c->n)
        if (step[x][y] && !seen[y])
            go_depth_first(c, y);
}

static void judge_search(const content *c, const arguments *a, verdict *v, void (*go)(const content *, int)) {
    int x = live_vertex(c, a->x, v);
    if (x < 0)
        return;
    find_steps(c);
    go(c, x);
    put_ordered(c, v);
}

static void judge_get_bfs(const content *c, const arguments *a, verdict *v) { judge_search(c, a, v, go_breadth_first); }

static void judge_get_dfs(const content *c, const arguments *a, verdict *v) { judge_search(c, a, v, go_depth_first); }

static void judge_is_reachable(const content *c, const arguments *a, verdict *v) {
    int x = live_vertex(c, a->x, v);
    int y = x < 0 ? -1 : live_vertex(c, a->y, v);
    if (y < 0)
        return;
    find_steps(c);
    go_breadth_first(c, x);
    say(v, 0, seen[y]);
}

/* Every step the other way round. */
static void turn_steps(const content *c) {
    EACH(x, c->n)
        EACH(y, x) {
            bool back = step[y][x];
            step[y][x] = step[x][y];
            step[x][y] = back;
        }
}

static void judge_reached(const content *c, const arguments *a, verdict *v, bool turned) {
    int x = live_vertex(c, a->x, v);
    if (x < 0)
        return;
    find_steps(c);
    if (turned)
        turn_steps(c);
    go_breadth_first(c, x);
    EACH(y, c->n)
        if (y != x && seen[y])
            put(v, c->vertex[y]);
}

static void judge_get_upstream_vertices(const content *c, const arguments *a, verdict *v) { judge_reached(c, a, v, true); }

static void judge_get_downstream_vertices(const content *c, const arguments *a, verdict *v) { judge_reached(c, a, v, false); }

/* ---- Structure */

static bool reached[MOST_VERTICES][MOST_VERTICES];

static void find_reached(const content *c) {
    find_steps(c);
    EACH(x, c->n) {
        go_breadth_first(c, x);
        memcpy(reached[x], seen, sizeof seen);
    }
}

/* For each vertex other than `without` the first vertex that it is linked to through co-membership. */
static void find_classes(const content *c, int without, int *class) {
    bool moved = true;
    EACH(x, c->n)
        class[x] = x;
    while (moved) {
        moved = false;
        EACH(j, c->m) {
            int least = c->n;
            EACH(i, c->count[j])
                if (c->member[j][i] != without && class[c->member[j][i]] < least)
                    least = class[c->member[j][i]];
            EACH(i, c->count[j])
                if (c->member[j][i] != without && class[c->member[j][i]] != least) {
                    class[c->member[j][i]] = least;
                    moved = true;
                }
        }
    }
}

static void judge_is_connected(const content *c, const arguments *a, verdict *v) {
    int class[MOST_VERTICES];
    (void)a;
    find_classes(c, -1, class);
    v->detail = 1;
    EACH(x, c->n)
        if (class[x] != 0)
            v->detail = 0;
}

static bool may_come(const content *c, const bool *placed, int y) {
    EACH(x, c->n)
        if (!placed[x] && step[x][y])
            return false;
    return !placed[y];
}

/* The smallest order in which every step goes forward; whether there is one. */
static bool find_order(const content *c) {
    bool placed[MOST_VERTICES] = {false};
    find_steps(c);
    while (ordered < c->n) {
        int y = 0;
        while (y < c->n && !may_come(c, placed, y))
            y++;
        if (y == c->n)
            return false;
        placed[y] = true;
        order[ordered++] = y;
    }
    return true;
}

static void judge_is_acyclic(const content *c, const arguments *a, verdict *v) {
    (void)a;
    say(v, 0, find_order(c));
}

static void judge_topological_sort(const content *c, const arguments *a, verdict *v) {
    (void)a;
    if (!find_order(c))
        SAY(9, 0);
    put_ordered(c, v);
}

static void judge_get_transitive_closure(const content *c, const arguments *a, verdict *v) {
    (void)a;
    find_reached(c);
    EACH(x, c->n)
        EACH(y, c->n)
            if (x != y && reached[x][y]) {
                put(v, c->vertex[x]);
                put(v, c->vertex[y]);
            }
}

/* Largest neighbour first; a vertex goes into the order when it is finished. */
static void finish(const content *c, int x) {
    seen[x] = true;
    for (int y = c->n - 1; y >= 0; y--)
        if (step[x][y] && !seen[y])
            finish(c, y);
    order[ordered++] = x;
}

static void judge_strongly_connected_components(const content *c, const arguments *a, verdict *v) {
    bool written[MOST_VERTICES] = {false};
    (void)a;
    find_reached(c);
    find_steps(c);
    EACH(x, c->n)
        if (!seen[x])
            finish(c, x);
    for (int k = ordered - 1; k >= 0; k--) {
        bool mutual[MOST_VERTICES];
        int x = order[k];
        if (written[x])
            continue;
        EACH(y, c->n) {
            mutual[y] = reached[x][y] && reached[y][x];
            written[y] = written[y] || mutual[y];
        }
        put_counted(c, mutual, v);
    }
}

static void judge_connected_components(const content *c, const arguments *a, verdict *v) {
    int class[MOST_VERTICES];
    (void)a;
    find_classes(c, -1, class);
    EACH(x, c->n) {
        bool with_x[MOST_VERTICES];
        if (class[x] != x)
            continue;
        EACH(y, c->n)
            with_x[y] = class[y] == x;
        put_counted(c, with_x, v);
    }
}

/* ---- Properties */

static void judge_get_orphan_vertices(const content *c, const arguments *a, verdict *v) {
    bool orphan[MOST_VERTICES];
    (void)a;
    memset(orphan, true, sizeof orphan);
    EACH(j, c->m)
        EACH(i, c->count[j])
            orphan[c->member[j][i]] = false;
    put_marked(c, orphan, v);
}

static void judge_get_orphan_hyperedges(const content *c, const arguments *a, verdict *v) {
    (void)a;
    EACH(j, c->m)
        if (c->count[j] == 0)
            put(v, c->hyperedge[j]);
}

static void judge_get_endpoints(const content *c, const arguments *a, verdict *v) {
    bool source[MOST_VERTICES], sink[MOST_VERTICES];
    (void)a;
    memset(source, true, sizeof source);
    memset(sink, true, sizeof sink);
    EACH_STEP(c, j, i) {
        sink[c->member[j][i]] = false;
        source[c->member[j][i + 1]] = false;
    }
    put_counted(c, source, v);
    put_counted(c, sink, v);
}

static bool in_set[MOST_HYPEREDGES][MOST_VERTICES];
static uint32_t set_size[MOST_HYPEREDGES];

static void find_sets(const content *c) {
    memset(in_set, 0, sizeof in_set);
    memset(set_size, 0, sizeof set_size);
    EACH(j, c->m)
        EACH(i, c->count[j]) {
            set_size[j] += !in_set[j][c->member[j][i]];
            in_set[j][c->member[j][i]] = true;
        }
}

static bool strictly_within(const content *c, int j, int k) {
    EACH(i, c->count[j])
        if (!in_set[k][c->member[j][i]])
            return false;
    return set_size[j] < set_size[k];
}

static void judge_get_inclusions(const content *c, const arguments *a, verdict *v) {
    (void)a;
    find_sets(c);
    EACH(j, c->m)
        EACH(k, c->m)
            if (strictly_within(c, j, k)) {
                put(v, c->hyperedge[j]);
                put(v, c->hyperedge[k]);
            }
}

static bool included(const content *c, int j) {
    EACH(k, c->m)
        if (strictly_within(c, j, k))
            return true;
    return false;
}

static void judge_get_nestedness_profile(const content *c, const arguments *a, verdict *v) {
    (void)a;
    find_sets(c);
    for (uint32_t size = 1; size <= MOST_MEMBERS; size++) {
        uint32_t total = 0, within = 0;
        EACH(j, c->m)
            if (set_size[j] == size) {
                total++;
                within += included(c, j);
            }
        if (total == 0)
            continue;
        put(v, size);
        put(v, within);
        put(v, total);
    }
}

/* Whether two vertices other than x are linked by `before` and not by `after`. */
static bool parted(const content *c, int x, const int *before, const int *after) {
    EACH(y, c->n)
        EACH(z, y)
            if (y != x && z != x && before[y] == before[z] && after[y] != after[z])
                return true;
    return false;
}

static void judge_find_cut_vertices(const content *c, const arguments *a, verdict *v) {
    int before[MOST_VERTICES], after[MOST_VERTICES];
    (void)a;
    find_classes(c, -1, before);
    EACH(x, c->n) {
        find_classes(c, x, after);
        if (parted(c, x, before, after))
            put(v, c->vertex[x]);
    }
}

static void judge_is_k_uniform(const content *c, const arguments *a, verdict *v) {
    v->detail = 1;
    EACH(j, c->m)
        if ((size_t)c->count[j] != a->size)
            v->detail = 0;
}

/* ---- Paths */

/* Least weight of a step (turned where asked) and the lowest hyperedge of that weight; -1 where there is no step. */
static int least_by[MOST_VERTICES][MOST_VERTICES];
/* Cost and steps of the best walk to a vertex; steps -1 where there is none. */
static uint64_t cost[MOST_VERTICES];
static int steps[MOST_VERTICES];

static void find_least(const content *c, bool turned) {
    memset(least_by, -1, sizeof least_by);
    EACH_STEP(c, j, i) {
        int *by = &least_by[c->member[j][i + turned]][c->member[j][i + !turned]];
        if (*by < 0 || c->weight[j] < c->weight[*by])
            *by = j;
    }
}

/* Whether going from x by way of y is better than what is known of x; then it is known. */
static bool better_by(const content *c, int x, int y) {
    if (least_by[x][y] < 0 || steps[y] < 0)
        return false;
    uint64_t total = cost[y] + c->weight[least_by[x][y]];
    if (steps[x] >= 0 && (cost[x] < total || (cost[x] == total && steps[x] <= steps[y] + 1)))
        return false;
    cost[x] = total;
    steps[x] = steps[y] + 1;
    return true;
}

static void find_costs_to(const content *c, int to) {
    bool moved = true;
    memset(steps, -1, sizeof steps);
    cost[to] = 0;
    steps[to] = 0;
    while (moved) {
        moved = false;
        EACH(x, c->n)
            EACH(y, c->n)
                moved |= better_by(c, x, y);
    }
}

static void put_cost(verdict *v, uint64_t total) {
    put(v, (uint32_t)total);
    put(v, (uint32_t)(total >> 32));
}

/* The smallest next vertex on a best walk from x. */
static int next_on_best(const content *c, int x) {
    int y = 0;
    while (least_by[x][y] < 0 || steps[y] != steps[x] - 1 || cost[y] + c->weight[least_by[x][y]] != cost[x])
        y++;
    return y;
}

static void judge_get_dijkstra_connections_with_cost(const content *c, const arguments *a, verdict *v) {
    int x = live_vertex(c, a->x, v);
    int y = x < 0 ? -1 : live_vertex(c, a->y, v);
    if (y < 0)
        return;
    find_least(c, false);
    find_costs_to(c, y);
    put_cost(v, steps[x] < 0 ? 0 : cost[x]);
    put(v, (uint32_t)(steps[x] + 1));
    if (steps[x] < 0)
        return;
    put(v, a->x);
    put(v, UINT32_MAX);
    while (steps[x] > 0) {
        int next = next_on_best(c, x);
        put(v, c->vertex[next]);
        put(v, c->hyperedge[least_by[x][next]]);
        x = next;
    }
}

static void judge_get_dijkstra_from(const content *c, const arguments *a, verdict *v) {
    int x = live_vertex(c, a->x, v);
    if (x < 0)
        return;
    find_least(c, true);
    find_costs_to(c, x);
    EACH(y, c->n)
        if (steps[y] >= 0) {
            put(v, c->vertex[y]);
            put_cost(v, cost[y]);
        }
}

/* ---- The walk */

static uint64_t draw_next(uint64_t *state) {
    *state ^= *state << 13;
    *state ^= *state >> 7;
    *state ^= *state << 17;
    return *state;
}

/* The hyperedge that a draw takes among those that list x. */
static int taken(const content *c, int x, uint64_t draw) {
    uint64_t total = 0, sum = 0;
    int last = -1;
    EACH(j, c->m)
        total += lists(c, j, x) ? c->weight[j] : 0;
    double at = (double)draw / 18446744073709551616.0 * (double)total;
    EACH(j, c->m)
        if (lists(c, j, x)) {
            last = j;
            sum += c->weight[j];
            if ((double)sum > at)
                return j;
        }
    return last;
}

static int others(const content *c, int j, int x, int *found) {
    int count = 0;
    EACH(i, c->count[j]) {
        bool known = c->member[j][i] == x;
        EACH(k, count)
            known = known || found[k] == c->member[j][i];
        if (!known)
            found[count++] = c->member[j][i];
    }
    return count;
}

static void judge_random_walk(const content *c, const arguments *a, verdict *v) {
    int x = live_vertex(c, a->x, v);
    if (x < 0)
        return;
    uint64_t state = a->seed == 0 ? 1 : a->seed;
    size_t last = a->size > 4096 ? 4096 : a->size;
    put(v, c->vertex[x]);
    for (size_t k = 0; k < last; k++) {
        int found[MOST_MEMBERS], listing = 0;
        EACH(j, c->m)
            listing += lists(c, j, x);
        if (listing > 0) {
            int count = others(c, taken(c, x, draw_next(&state)), x, found);
            if (count > 0)
                x = found[draw_next(&state) % (uint64_t)count];
        }
        put(v, c->vertex[x]);
    }
}

/* ---- Frame text */

static uint8_t byte_sum;

static void put_byte(verdict *v, uint32_t byte) {
    const char *digits = "0123456789ABCDEF";
    v->out.text[v->listed++] = (uint8_t)digits[byte >> 4 & 15];
    v->out.text[v->listed++] = (uint8_t)digits[byte & 15];
    byte_sum = (uint8_t)(byte_sum + byte);
}

static void put_bytes(verdict *v, uint32_t number, int bytes) {
    for (int k = bytes - 1; k >= 0; k--)
        put_byte(v, number >> 8 * k & 255);
}

static void end_frame(verdict *v) {
    put_byte(v, (uint8_t)-byte_sum);
    v->out.text[v->listed++] = '\n';
}

static void judge_write_frames(const content *c, const arguments *a, verdict *v) {
    (void)a;
    byte_sum = 0;
    put_bytes(v, 0x484731, 3);
    put_bytes(v, c->next_vertex, 4);
    put_bytes(v, c->next_hyperedge, 4);
    put_bytes(v, (uint32_t)c->n, 2);
    put_bytes(v, (uint32_t)c->m, 2);
    end_frame(v);
    EACH(i, c->n) {
        put_byte(v, 1);
        put_bytes(v, c->vertex[i], 4);
        put_bytes(v, c->vertex_weight[i], 4);
        end_frame(v);
    }
    EACH(j, c->m) {
        put_byte(v, 2);
        put_bytes(v, c->hyperedge[j], 4);
        put_bytes(v, c->weight[j], 4);
        put_byte(v, (uint32_t)c->count[j]);
        EACH(i, c->count[j])
            put_bytes(v, c->vertex[c->member[j][i]], 4);
        end_frame(v);
    }
}

/* A text and how far it was read; `good` as long as no line was faulty. */
typedef struct {
    const uint8_t *text;
    size_t bytes, at;
    bool good;
} reading;

static uint32_t read_digit(reading *r) {
    uint8_t c = r->at < r->bytes ? r->text[r->at++] : '?';
    if (c >= '0' && c <= '9')
        return c - (uint32_t)'0';
    if (c >= 'A' && c <= 'F')
        return c - (uint32_t)'A' + 10;
    r->good = false;
    return 0;
}

static uint32_t read_bytes(reading *r, int bytes) {
    uint32_t number = 0;
    EACH(k, bytes) {
        uint32_t high = read_digit(r), byte = 16 * high + read_digit(r);
        byte_sum = (uint8_t)(byte_sum + byte);
        number = number << 8 | byte;
    }
    return number;
}

static void demand(reading *r, bool fact) { r->good = r->good && fact; }

static void read_end(reading *r) {
    read_bytes(r, 1);
    demand(r, byte_sum == 0 && r->at < r->bytes && r->text[r->at++] == '\n');
    byte_sum = 0;
}

/* Whether a table can have the last number that was read: it is above the one before, and those to come have room below the next. */
static bool can_stand(const uint32_t *numbers, int i, int count, uint32_t next) {
    return (i == 0 || numbers[i - 1] < numbers[i]) && (int64_t)numbers[i] + (count - 1 - i) < next;
}

static void read_head(reading *r, content *c) {
    demand(r, read_bytes(r, 3) == 0x484731);
    c->next_vertex = read_bytes(r, 4);
    c->next_hyperedge = read_bytes(r, 4);
    c->n = (int)read_bytes(r, 2);
    c->m = (int)read_bytes(r, 2);
    demand(r, c->n <= MOST_VERTICES && c->m <= MOST_HYPEREDGES && (c->m == 0 || c->n > 0));
    demand(r, (uint32_t)c->n <= c->next_vertex && (uint32_t)c->m <= c->next_hyperedge);
    read_end(r);
}

static void read_vertex_line(reading *r, content *c, int i) {
    demand(r, read_bytes(r, 1) == 1);
    c->vertex[i] = read_bytes(r, 4);
    c->vertex_weight[i] = read_bytes(r, 4);
    demand(r, can_stand(c->vertex, i, c->n, c->next_vertex));
    read_end(r);
}

static void read_hyperedge_line(reading *r, content *c, int j) {
    demand(r, read_bytes(r, 1) == 2);
    c->hyperedge[j] = read_bytes(r, 4);
    c->weight[j] = read_bytes(r, 4);
    c->count[j] = (int)read_bytes(r, 1);
    demand(r, can_stand(c->hyperedge, j, c->m, c->next_hyperedge));
    demand(r, c->count[j] >= 1 && c->count[j] <= MOST_MEMBERS);
    for (int i = 0; r->good && i < c->count[j]; i++) {
        c->member[j][i] = place_of_vertex(c, read_bytes(r, 4));
        demand(r, c->member[j][i] >= 0);
    }
    read_end(r);
}

static void judge_read_frames(const content *c, const arguments *a, verdict *v) {
    static content told;
    reading r = {.text = a->text, .bytes = a->bytes, .good = true};
    uint64_t line = 1;
    (void)c;
    byte_sum = 0;
    read_head(&r, &told);
    for (int i = 0; r.good && i < told.n; i++, line++)
        read_vertex_line(&r, &told, i);
    for (int j = 0; r.good && j < told.m; j++, line++)
        read_hyperedge_line(&r, &told, j);
    if (!r.good)
        SAY(12, line);
    if (r.at < r.bytes)
        SAY(12, line + 1);
    write_table(&told, v);
}

/* ---- The release desk */

enum { WAITING, REVIEWED, RELEASED };

/* 256 words, none over 2, and 0 behind those of the live vertices. */
static bool states_fit(const content *c, const arguments *a) {
    if (a->state_words != STATES)
        return false;
    EACH(i, STATES)
        if (a->states[i] > RELEASED)
            return false;
    return all_zero(a->states + c->n, a->states + STATES);
}

/* After an edit that changed the table: each vertex has the state that it had, and a new one waits. */
static void let_states_follow(const content *c, const arguments *a, verdict *v) {
    static content after;
    if (!v->changed)
        return;
    judge_table(v->table, TABLE, &after);
    memset(v->states, 0, sizeof v->states);
    EACH(i, after.n) {
        int was = place_of_vertex(c, after.vertex[i]);
        v->states[i] = was < 0 ? WAITING : a->states[was];
    }
    v->moved = true;
}

/* After a clear or a read: all wait, where it is done. */
static void let_all_wait(verdict *v) {
    memset(v->states, 0, sizeof v->states);
    v->moved = v->number == 0;
}

#define JUDGE_DESK_EDIT(name)                                                                  \
    static void judge_desk_##name(const content *c, const arguments *a, verdict *v) {          \
        judge_##name(c, a, v);                                                                 \
        let_states_follow(c, a, v);                                                            \
    }

JUDGE_DESK_EDIT(add_vertex)
JUDGE_DESK_EDIT(add_hyperedge)
JUDGE_DESK_EDIT(update_hyperedge_vertices)
JUDGE_DESK_EDIT(remove_vertex)
JUDGE_DESK_EDIT(remove_hyperedge)
JUDGE_DESK_EDIT(merge_vertices)
JUDGE_DESK_EDIT(withdraw_tray)

static void judge_desk_clear(const content *c, const arguments *a, verdict *v) {
    judge_clear(c, a, v);
    let_all_wait(v);
}

static void judge_desk_read_frames(const content *c, const arguments *a, verdict *v) {
    judge_read_frames(c, a, v);
    let_all_wait(v);
}

static void set_state(const arguments *a, int place, uint32_t state, verdict *v) {
    memcpy(v->states, a->states, sizeof v->states);
    v->states[place] = state;
    v->moved = true;
}

static void judge_desk_review(const content *c, const arguments *a, verdict *v) {
    int x = live_vertex(c, a->x, v);
    if (x >= 0 && a->states[x] == WAITING)
        set_state(a, x, REVIEWED, v);
}

/* The lowest vertex with a step into x that is not released, or -1. */
static int held_by(const content *c, const arguments *a, int x) {
    int lowest = -1;
    EACH_STEP(c, j, i) {
        int from = c->member[j][i];
        if (c->member[j][i + 1] == x && a->states[from] != RELEASED && (lowest < 0 || from < lowest))
            lowest = from;
    }
    return lowest;
}

static void judge_desk_release(const content *c, const arguments *a, verdict *v) {
    int x = live_vertex(c, a->x, v);
    if (x < 0 || a->states[x] == RELEASED)
        return;
    if (a->states[x] == WAITING)
        SAY(17, a->x);
    int by = held_by(c, a, x);
    if (by >= 0)
        SAY(18, c->vertex[by]);
    set_state(a, x, RELEASED, v);
}

/* Whether a step leads from x to itself or to a vertex that is placed. */
static bool steps_back(const content *c, const bool *placed, int x) {
    EACH(y, c->n)
        if (step[x][y] && (y == x || placed[y]))
            return true;
    return false;
}

static void judge_desk_accept_order(const content *c, const arguments *a, verdict *v) {
    bool placed[MOST_VERTICES] = {false};
    find_steps(c);
    for (size_t k = 0; k < a->count; k++) {
        int x = place_of_vertex(c, a->list[k]);
        if (x < 0 || placed[x] || steps_back(c, placed, x))
            SAY(19, k);
        placed[x] = true;
    }
    if (a->count < (size_t)c->n)
        SAY(19, a->count);
}

static void judge_desk_state(const content *c, const arguments *a, verdict *v) {
    int x = live_vertex(c, a->x, v);
    if (x >= 0)
        say(v, 0, a->states[x]);
}

static void judge_desk_list(const content *c, const arguments *a, verdict *v) {
    EACH(x, c->n)
        if (a->states[x] == a->x)
            put(v, c->vertex[x]);
}

static void judge_desk_releasable(const content *c, const arguments *a, verdict *v) {
    EACH(x, c->n)
        if (a->states[x] == REVIEWED && held_by(c, a, x) < 0)
            put(v, c->vertex[x]);
}

/* ---- The verdict */

#define JUDGE_OF(name, takes, words) judge_##name,
static void (*const judges[COUNT_OF_FUNCTIONS])(const content *, const arguments *, verdict *) = {FUNCTIONS(JUDGE_OF)};

void judge(int function, const content *c, const arguments *a, verdict *v) {
    v->changed = v->moved = false;
    v->listed = 0;
    say(v, 0, 0);
    bool anew_at_desk = function == F_desk_clear || function == F_desk_read_frames;
    bool whatever_it_holds = anew_at_desk || function == F_clear || function == F_read_frames;
    if (whatever_it_holds ? !c->sized : !c->formed)
        SAY(1, 0);
    if (functions[function].takes & DESK && !(anew_at_desk ? a->state_words == STATES : states_fit(c, a)))
        SAY(1, 0);
    judges[function](c, a, v);
    if (v->number == 0 && v->listed > 0)
        v->detail = v->listed;
}
