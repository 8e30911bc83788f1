/* Every call over plans, by the header, with tables that are exact, longer than needed, one short and of size 0. Each table stands between
 * guards, and every byte in and around it is looked at. What the numbers are is held against the Rust by tests/tables and tests/edits. */
#include "watered.h"

#include <stdio.h>
#include <stdlib.h>
#include <string.h>

static unsigned long checks, faults;

static void expect(int right, const char *what, size_t n, long detail)
{
    checks++;
    if (!right && faults++ < 20)
        printf("fault: %s (n %zu, %ld)\n", what, n, detail);
}

/* ---- lent slices between guards */

enum { GUARD = 16 };

typedef struct {
    size_t size, count;   /* of an element, of elements */
    unsigned char *bytes; /* guard, elements, guard */
    unsigned char *as_was;
} slice;

static size_t whole(const slice *s) { return (s->count + 2 * GUARD) * s->size; }
static unsigned char *start(const slice *s) { return s->bytes + GUARD * s->size; }

static slice lend(size_t size, size_t count)
{
    static uint64_t state = 88172645463325252u;
    slice s = {size, count, NULL, NULL};
    s.bytes = malloc(whole(&s));
    s.as_was = malloc(whole(&s));
    if (!s.bytes || !s.as_was)
        abort();
    for (size_t i = 0; i < whole(&s); i++) {
        state ^= state << 13, state ^= state >> 7, state ^= state << 17;
        s.bytes[i] = (unsigned char)(state >> 32);
    }
    memcpy(s.as_was, s.bytes, whole(&s));
    return s;
}

static void keep(slice *s) { memcpy(s->as_was, s->bytes, whole(s)); }

static void give_back(slice *s)
{
    free(s->bytes);
    free(s->as_was);
}

/* Nothing but the first `used` elements was written. */
static int beyond_stays(const slice *s, size_t used)
{
    size_t from = (GUARD + used) * s->size;
    return !memcmp(s->bytes, s->as_was, GUARD * s->size) && !memcmp(s->bytes + from, s->as_was + from, whole(s) - from);
}

static int stays(const slice *s) { return !memcmp(s->bytes, s->as_was, whole(s)); }

/* ---- the four tables */

typedef struct {
    slice of[4]; /* presence, rows, exclusive presence, exclusives */
} tables;

static tables lend_tables(const size_t count[4])
{
    tables t;
    for (int i = 0; i < 4; i++)
        t.of[i] = lend(i % 2 ? sizeof(double) : 1, count[i]);
    return t;
}

static tables lend_same(size_t count)
{
    size_t all[4] = {count, count, count, count};
    return lend_tables(all);
}

static void give_back_tables(tables *t)
{
    for (int i = 0; i < 4; i++)
        give_back(&t->of[i]);
}

static void keep_tables(tables *t)
{
    for (int i = 0; i < 4; i++)
        keep(&t->of[i]);
}

static int all_stay(const tables *t) { return stays(&t->of[0]) && stays(&t->of[1]) && stays(&t->of[2]) && stays(&t->of[3]); }

static int all_beyond_stay(const tables *t, size_t rows)
{
    return beyond_stays(&t->of[0], rows) && beyond_stays(&t->of[1], rows) && beyond_stays(&t->of[2], rows) && beyond_stays(&t->of[3], rows);
}

static int same_rows(const tables *a, const tables *b, size_t rows)
{
    for (int i = 0; i < 4; i++)
        if (memcmp(start(&a->of[i]), start(&b->of[i]), rows * a->of[i].size))
            return 0;
    return 1;
}

#define LENT(t) \
    start(&(t)->of[0]), (t)->of[0].count, (double *)(void *)start(&(t)->of[1]), (t)->of[1].count, \
    start(&(t)->of[2]), (t)->of[2].count, (double *)(void *)start(&(t)->of[3]), (t)->of[3].count

/* ---- plans */

typedef struct {
    size_t n;
    int32_t box[4];
    int32_t heads[30];
} plan;

/* Heads that overlap, touch, hold each other and lie apart; past the n heads stands what no head may have. */
static plan plan_of(size_t n, int32_t past)
{
    static const int32_t all[30] = {0,   0,  500, 300, 0,  400, 0, 300, 450, 10,    20,    60,  800, 0,  500,
                                    -40, 30, 200, 0,   0,  500, 0, 0,   499, -9000, 12000, 700, 150, 90, 1000};
    plan p = {n, {100, -50, 2000, 1500}, {0}};
    for (size_t i = 0; i < 30; i++)
        p.heads[i] = i < 3 * n ? all[i] : past;
    return p;
}

typedef uint32_t afresh_call(size_t, const int32_t[4], const int32_t[30], uint8_t *, size_t, double *, size_t, uint8_t *, size_t, double *,
                             size_t);

/* A call that must leave the plan it is handed alone. */
static uint32_t work_out(afresh_call *call, const plan *p, tables *t)
{
    plan handed = *p;
    uint32_t answer = call(handed.n, handed.box, handed.heads, LENT(t));
    expect(!memcmp(&handed, p, sizeof handed), "the plan handed over was written", p->n, 0);
    return answer;
}

/* ---- document 01's sentence on exclusives, from the rows */

static int ones(size_t mask)
{
    int count = 0;
    for (; mask; mask &= mask - 1)
        count++;
    return count;
}

static void exclusives_of(const uint8_t *presence, const double *rows, size_t n, double *exclusives)
{
    size_t masks = WATERED_ROWS(n), order[1024], count = 0;
    for (int c = 0; c <= (int)n; c++)
        for (size_t mask = 0; mask < masks; mask++)
            if (presence[mask] && ones(mask) == c)
                order[count++] = mask;
    for (size_t mask = 0; mask < masks; mask++)
        exclusives[mask] = 0.0;
    for (size_t i = count; i-- > 0;) {
        double sum = 0.0;
        for (size_t j = i + 1; j < count; j++)
            if ((order[i] & order[j]) == order[i])
                sum += exclusives[order[j]];
        exclusives[order[i]] = rows[order[i]] - sum;
    }
    for (size_t mask = 0; mask < masks; mask++)
        if (!(exclusives[mask] > 0.0))
            exclusives[mask] = 0.0;
}

static void look_at(const tables *t, size_t n, int boxed, double box_area)
{
    size_t masks = WATERED_ROWS(n);
    const uint8_t *presence = start(&t->of[0]);
    const double *rows = (const double *)(const void *)start(&t->of[1]), zero = 0.0;
    double own[1024];
    expect(presence[0] == boxed, "the byte of row 0", n, presence[0]);
    expect(rows[0] == (boxed ? box_area : 0.0), "row 0", n, 0);
    for (size_t i = 0; i < n; i++)
        expect(presence[(size_t)1 << i] == 1, "a single is not present", n, (long)i);
    for (size_t mask = 0; mask < masks; mask++) {
        expect(presence[mask] <= 1, "a byte that is neither 0 nor 1", n, (long)mask);
        expect(rows[mask] - rows[mask] == 0.0, "a row that is not finite", n, (long)mask);
        if (!presence[mask])
            expect(!memcmp(&rows[mask], &zero, sizeof zero), "an absent row is not +0", n, (long)mask);
    }
    exclusives_of(presence, rows, n, own);
    expect(!memcmp(presence, start(&t->of[2]), masks), "the bytes of the second table", n, 0);
    expect(!memcmp(own, start(&t->of[3]), masks * sizeof(double)), "exclusives", n, 0);
}

/* ---- the calls, each with tables of all lengths */

static void afresh(afresh_call *call, size_t n, int boxed)
{
    plan p = plan_of(n, INT32_MIN), other = plan_of(n, 7);
    size_t rows = WATERED_ROWS(n);
    tables exact = lend_same(rows);
    expect(work_out(call, &p, &exact) == WATERED_TAKEN, "a plan was refused", n, 0);
    expect(all_beyond_stay(&exact, rows), "written beyond the rows", n, 0);
    look_at(&exact, n, boxed, 2000.0 * 1500.0);
    tables longer = lend_same(rows + 5);
    expect(work_out(call, &other, &longer) == WATERED_TAKEN, "longer tables were refused", n, 0);
    expect(all_beyond_stay(&longer, rows), "written beyond the rows of longer tables", n, 0);
    expect(same_rows(&exact, &longer, rows), "what stands past the heads, or in the tables, changed an answer", n, 0);
    give_back_tables(&longer);
    for (int i = 0; i < 8; i++) {
        size_t count[4] = {rows, rows + 1, rows, rows + 1};
        count[i % 4] = i < 4 ? rows - 1 : 0;
        tables shorter = lend_tables(count);
        expect(work_out(call, &p, &shorter) == WATERED_TABLES_TOO_SHORT, "a short table was taken", n, i);
        expect(all_stay(&shorter), "a refused call wrote", n, i);
        give_back_tables(&shorter);
    }
    give_back_tables(&exact);
}

static const int32_t moves[8][3] = {{20, 10, 480}, {300, 300, 1}, {-20000, 20000, 20000}, {0, 0, 500},
                                    {1000, 0, 500}, {7, -7, 77},  {0, 0, 0},               {300, 0, 0}};

static void edits(size_t n)
{
    plan p = plan_of(n, 40001);
    size_t rows = WATERED_ROWS(n);
    tables t = lend_same(rows + 3);
    expect(watered_afresh(p.n, p.box, p.heads, LENT(&t)) == WATERED_TAKEN, "a plan was refused", n, 0);
    for (size_t k = 0; k < n; k++) {
        const int32_t *to = moves[k % 8];
        plan after = p;
        memcpy(&after.heads[3 * k], to, 3 * sizeof *to);
        for (int i = 0; i < 8; i++) {
            size_t count[4] = {rows, rows, rows, rows};
            count[i % 4] = i < 4 ? rows - 1 : 0;
            tables shorter = lend_tables(count);
            plan handed = p;
            uint32_t answer = watered_edit(p.n, handed.box, handed.heads, k, to[0], to[1], to[2], LENT(&shorter));
            expect(answer == WATERED_TABLES_TOO_SHORT, "an edit with a short table was taken", n, i);
            expect(all_stay(&shorter) && !memcmp(&handed, &p, sizeof p), "a refused edit wrote", n, i);
            give_back_tables(&shorter);
        }
        keep_tables(&t);
        expect(watered_edit(p.n, p.box, p.heads, k, to[0], to[1], to[2], LENT(&t)) == WATERED_TAKEN, "an edit was refused", n, (long)k);
        expect(!memcmp(&p, &after, sizeof p), "the plan left", n, (long)k);
        expect(all_beyond_stay(&t, rows), "an edit wrote beyond the rows", n, (long)k);
        tables fresh = lend_same(rows);
        expect(watered_afresh(p.n, p.box, p.heads, LENT(&fresh)) == WATERED_TAKEN, "the plan left was refused", n, (long)k);
        expect(same_rows(&t, &fresh, rows), "a stale table", n, (long)k);
        give_back_tables(&fresh);
    }
    give_back_tables(&t);
}

static void runs(size_t n)
{
    /* the head that edit 1 leaves at radius 1 is closed by edit 7, moved closed by edit 8 and opened by edit 9 */
    enum { EDITS = 10 };
    size_t edit_heads[EDITS] = {0, 1, 2, n, 0, 3, SIZE_MAX, 1, 1, 1}, rows = WATERED_ROWS(n);
    int32_t x[EDITS] = {20, 300, 20001, 0, 0, 7, 0, 300, -9, 30}, y[EDITS] = {10, 300, 0, 0, -20001, -7, 0, 300, 9, 30};
    int32_t radius[EDITS] = {480, 1, 5, 5, 5, -1, 5, 0, 0, 444};
    for (size_t room = 0; room <= EDITS + 2; room++) {
        plan p = plan_of(n, -3), one = p;
        tables t = lend_same(rows + 2), by_one = lend_same(rows + 2);
        slice answers = lend(1, room);
        size_t tried = room < EDITS ? room : EDITS;
        watered_afresh(p.n, p.box, p.heads, LENT(&t));
        watered_afresh(p.n, p.box, p.heads, LENT(&by_one));
        keep_tables(&t);
        size_t count = watered_run(p.n, p.box, p.heads, edit_heads, EDITS, x, EDITS, y, EDITS, radius, EDITS, start(&answers), room, LENT(&t));
        expect(count == tried, "how many edits were tried", n, (long)count);
        for (size_t i = 0; i < tried; i++) {
            uint32_t answer = watered_edit(one.n, one.box, one.heads, edit_heads[i], x[i], y[i], radius[i], LENT(&by_one));
            expect(start(&answers)[i] == answer, "an answer of a run", n, (long)i);
        }
        expect(beyond_stays(&answers, tried), "answers beyond", n, (long)room);
        expect(!memcmp(&p, &one, sizeof p), "the plan that a run leaves", n, (long)room);
        expect(same_rows(&t, &by_one, rows) && all_beyond_stay(&t, rows), "the tables that a run leaves", n, (long)room);
        give_back(&answers);
        give_back_tables(&t);
        give_back_tables(&by_one);
    }
    /* each of the lists may be the shortest */
    for (int i = 0; i < 4; i++) {
        plan p = plan_of(n, 5);
        tables t = lend_same(rows);
        slice answers = lend(1, EDITS);
        size_t counts[4] = {EDITS, EDITS, EDITS, EDITS};
        counts[i] = 2;
        watered_afresh(p.n, p.box, p.heads, LENT(&t));
        size_t count =
            watered_run(p.n, p.box, p.heads, edit_heads, counts[0], x, counts[1], y, counts[2], radius, counts[3], start(&answers), EDITS, LENT(&t));
        expect(count == 2 && beyond_stays(&answers, 2), "a list that is cut", n, i);
        give_back(&answers);
        give_back_tables(&t);
    }
}

/* ---- refusals of plans, in order */

static const struct {
    int at; /* 0: n; 1 to 4: the box; 5 on: heads[at - 5] */
    int64_t value;
    uint32_t answer;
} wrong[] = {
    {0, 11, 2},     {0, INT64_MAX, 2}, {1, 20001, 4}, {2, -20001, 4},    {3, 0, 5},     {3, 40001, 5},  {4, -1, 5}, {4, INT32_MAX, 5},
    {5, 20001, 4},  {6, -20001, 4},    {7, -1, 11},   {7, 20001, 11},    {32, 20001, 4}, {34, -1, 11},  {33, INT32_MIN, 4},
    {7, INT32_MIN, 11}, {34, INT32_MAX, 11},
};

static const struct {
    int at;
    int64_t value;
} taken[] = {{0, 10}, {1, 20000}, {2, -20000}, {3, 1}, {3, 40000}, {4, 40000}, {5, 20000}, {6, -20000}, {7, 0},
             {7, 1},  {7, 20000}, {34, 0},     {34, 20000}};

static void put(plan *p, int at, int64_t value)
{
    if (at == 0)
        p->n = (size_t)value;
    else if (at < 5)
        p->box[at - 1] = (int32_t)value;
    else
        p->heads[at - 5] = (int32_t)value;
}

static plan changed(int at, int64_t value)
{
    plan p = plan_of(10, 0);
    put(&p, at, value);
    return p;
}

/* ---- gradients and overlap */

typedef uint32_t gradient_call(size_t, const int32_t[4], const int32_t[30], uint8_t *, size_t, double *, size_t, double *, size_t);

typedef struct {
    slice presence, exclusives, gradients;
} slopes;

static slopes lend_slopes(size_t presence, size_t exclusives, size_t gradients)
{
    slopes s = {lend(1, presence), lend(sizeof(double), exclusives), lend(sizeof(double), gradients)};
    return s;
}

static void give_back_slopes(slopes *s)
{
    give_back(&s->presence);
    give_back(&s->exclusives);
    give_back(&s->gradients);
}

static int slopes_stay(const slopes *s) { return stays(&s->presence) && stays(&s->exclusives) && stays(&s->gradients); }

static uint32_t slope(gradient_call *call, const plan *p, slopes *s)
{
    plan handed = *p;
    uint32_t answer =
        call(handed.n, handed.box, handed.heads, start(&s->presence), s->presence.count, (double *)(void *)start(&s->exclusives),
             s->exclusives.count, (double *)(void *)start(&s->gradients), s->gradients.count);
    expect(!memcmp(&handed, p, sizeof handed), "the plan handed over was written", p->n, 0);
    return answer;
}

static void gradients(gradient_call *call, afresh_call *same, size_t n, size_t width, size_t numbers)
{
    plan p = plan_of(n, 12345), other = plan_of(n, -1);
    size_t rows = WATERED_ROWS(n);
    expect(numbers == rows * width, "the size of the gradients", n, (long)numbers);
    slopes exact = lend_slopes(rows, rows, numbers), longer = lend_slopes(rows + 4, rows + 1, numbers + 9);
    tables t = lend_same(rows);
    expect(slope(call, &p, &exact) == WATERED_TAKEN && slope(call, &other, &longer) == WATERED_TAKEN, "gradients were refused", n, 0);
    expect(work_out(same, &p, &t) == WATERED_TAKEN, "a plan was refused", n, 0);
    expect(beyond_stays(&exact.presence, rows) && beyond_stays(&exact.exclusives, rows) && beyond_stays(&exact.gradients, numbers),
           "written beyond the rows", n, 1);
    expect(beyond_stays(&longer.presence, rows) && beyond_stays(&longer.exclusives, rows) && beyond_stays(&longer.gradients, numbers),
           "written beyond the rows of longer tables", n, 2);
    expect(!memcmp(start(&exact.presence), start(&longer.presence), rows) &&
               !memcmp(start(&exact.exclusives), start(&longer.exclusives), rows * sizeof(double)) &&
               !memcmp(start(&exact.gradients), start(&longer.gradients), numbers * sizeof(double)),
           "what stands past the heads, or in the tables, changed an answer", n, 3);
    expect(!memcmp(start(&exact.presence), start(&t.of[0]), rows), "the presence bytes of gradients", n, 4);
    const double *entry = (const double *)(const void *)start(&exact.gradients), zero = 0.0;
    for (size_t i = 0; i < numbers; i++) {
        expect(entry[i] - entry[i] == 0.0, "a gradient that is not finite", n, (long)i);
        if (!start(&exact.presence)[i / width])
            expect(!memcmp(&entry[i], &zero, sizeof zero), "a gradient of an absent row is not +0", n, (long)i);
    }
    for (int i = 0; i < 6; i++) {
        size_t count[3] = {rows, rows, numbers};
        if (i % 3 == 2 && numbers == 0)
            continue; /* no gradient numbers are needed: none can be too few */
        count[i % 3] = i < 3 ? count[i % 3] - 1 : 0;
        slopes shorter = lend_slopes(count[0], count[1], count[2]);
        expect(slope(call, &p, &shorter) == WATERED_TABLES_TOO_SHORT, "a short table of gradients was taken", n, i);
        expect(slopes_stay(&shorter), "a refused call wrote", n, i);
        give_back_slopes(&shorter);
    }
    for (size_t i = 0; i < sizeof wrong / sizeof *wrong; i++) {
        plan bad = changed(wrong[i].at, wrong[i].value);
        expect(slope(call, &bad, &exact) == wrong[i].answer, "the answer of gradients", n, (long)i);
    }
    give_back_slopes(&exact);
    give_back_slopes(&longer);
    give_back_tables(&t);
}

static void overlaps(void)
{
    for (size_t n = 0; n <= WATERED_HEADS; n++) {
        plan p = plan_of(n, 9), handed = p;
        slice lent = lend(sizeof(double), 1), other = lend(sizeof(double), 1);
        expect(watered_overlap(p.n, p.box, p.heads, (double *)(void *)start(&lent)) == WATERED_TAKEN, "an overlap was refused", n, 0);
        p = plan_of(n, INT32_MAX);
        expect(watered_overlap(p.n, p.box, p.heads, (double *)(void *)start(&other)) == WATERED_TAKEN, "an overlap was refused", n, 1);
        expect(beyond_stays(&lent, 1) && !memcmp(start(&lent), start(&other), sizeof(double)), "an overlap", n, 2);
        expect(!memcmp(handed.heads, plan_of(n, 9).heads, sizeof p.heads), "the plan handed over was written", n, 3);
        give_back(&lent);
        give_back(&other);
    }
    for (size_t i = 0; i < sizeof wrong / sizeof *wrong; i++) {
        plan bad = changed(wrong[i].at, wrong[i].value);
        slice lent = lend(sizeof(double), 1);
        expect(watered_overlap(bad.n, bad.box, bad.heads, (double *)(void *)start(&lent)) == wrong[i].answer, "the answer of overlap", bad.n, (long)i);
        expect(stays(&lent), "a refused overlap wrote", bad.n, (long)i);
        give_back(&lent);
    }
}



/* ---- closed heads: a plan with some of its heads closed is held against the plan that lacks these heads */

/* The number that mask S of a plan has where the heads of `left` alone are left in, in their order; S is a part of `left`. */
static size_t without_closed(size_t s, size_t left)
{
    size_t small = 0;
    for (int i = 0, bit = 0; i < WATERED_HEADS; i++)
        if (left >> i & 1)
            small |= (s >> i & 1) << bit++;
    return small;
}

static int same_double(const double *a, const double *b) { return !memcmp(a, b, sizeof *a); }

static double *doubles(const slice *s) { return (double *)(void *)start(s); }

/* plan_of(n), its heads closed but for those of `left`, with and without the closed ones. These stand where they stood, which for head 0 is the
 * middle of others, on the point (400, 300) that heads 0 and 4 have in common, or at (500, 0) on the edge of head 0. */
static void plans_with_closed(size_t n, size_t left, plan *with, plan *without)
{
    static const int32_t places[2][3] = {{400, 300, 0}, {500, 0, 0}};
    *with = *without = plan_of(n, 3);
    without->n = 0;
    for (size_t i = 0; i < n; i++)
        if (left >> i & 1)
            memcpy(&without->heads[3 * without->n++], &with->heads[3 * i], 3 * sizeof(int32_t));
        else if (i % 3)
            memcpy(&with->heads[3 * i], places[i % 3 - 1], sizeof places[0]);
        else
            with->heads[3 * i + 2] = 0;
}

static void closed_tables(afresh_call *call, size_t n, size_t left)
{
    plan with, without;
    plans_with_closed(n, left, &with, &without);
    tables t = lend_same(WATERED_ROWS(n)), u = lend_same(WATERED_ROWS(without.n));
    const double zero = 0.0;
    expect(work_out(call, &with, &t) == WATERED_TAKEN && work_out(call, &without, &u) == WATERED_TAKEN, "a closed head was refused", n, (long)left);
    for (size_t s = 0; s < WATERED_ROWS(n); s++) {
        size_t small = without_closed(s, left);
        for (int i = 0; i < 4; i += 2) {
            int named = (s & ~left) != 0;
            uint8_t byte = named ? 0 : start(&u.of[i])[small];
            const double *number = named ? &zero : doubles(&u.of[i + 1]) + small;
            expect(start(&t.of[i])[s] == byte && same_double(doubles(&t.of[i + 1]) + s, number), "a row of a plan with closed heads", n, (long)s);
        }
    }
    give_back_tables(&t);
    give_back_tables(&u);
}

static void closed_gradients(gradient_call *call, size_t n, size_t left, size_t of_box)
{
    plan with, without;
    plans_with_closed(n, left, &with, &without);
    const size_t wide = 3 * n + of_box, narrow = 3 * without.n + of_box, rows = WATERED_ROWS(n), few = WATERED_ROWS(without.n);
    slopes a = lend_slopes(rows, rows, rows * wide), b = lend_slopes(few, few, few * narrow);
    const double zero = 0.0, *entries = doubles(&a.gradients), *wanted = doubles(&b.gradients);
    expect(slope(call, &with, &a) == WATERED_TAKEN && slope(call, &without, &b) == WATERED_TAKEN, "a closed head was refused", n, (long)left);
    for (size_t s = 0; s < rows; s++) {
        const size_t small = without_closed(s, left);
        const int named = (s & ~left) != 0;
        expect(start(&a.presence)[s] == (named ? 0 : start(&b.presence)[small]), "the byte of a gradient row", n, (long)s);
        expect(same_double(doubles(&a.exclusives) + s, named ? &zero : doubles(&b.exclusives) + small), "an exclusive", n, (long)s);
        for (size_t e = 0, from = 0; e < wide; e++) {
            int closed = e < 3 * n && !(left >> e / 3 & 1);
            const double *want = named || closed ? &zero : wanted + small * narrow + from;
            from += !closed;
            expect(same_double(entries + s * wide + e, want), "a gradient entry of a plan with closed heads", n, (long)(s * wide + e));
        }
    }
    give_back_slopes(&a);
    give_back_slopes(&b);
}

static void closed_overlap(size_t n, size_t left)
{
    plan with, without;
    plans_with_closed(n, left, &with, &without);
    double of_all = -1.0, of_left = -2.0;
    expect(watered_overlap(with.n, with.box, with.heads, &of_all) == WATERED_TAKEN, "a closed head was refused", n, (long)left);
    expect(watered_overlap(without.n, without.box, without.heads, &of_left) == WATERED_TAKEN, "an overlap was refused", n, (long)left);
    expect(same_double(&of_all, &of_left), "the overlap of a plan with closed heads", n, (long)left);
}

/* Each head is closed where it stands and opened again: the tables on the way are those afresh, and in the end the first ones. */
static void off_and_on(size_t n)
{
    plan p = plan_of(n, 0);
    size_t rows = WATERED_ROWS(n);
    tables t = lend_same(rows), first = lend_same(rows), fresh = lend_same(rows);
    expect(work_out(watered_afresh, &p, &t) == WATERED_TAKEN && work_out(watered_afresh, &p, &first) == WATERED_TAKEN, "a plan was refused", n, 0);
    for (int turn = 0; turn < 2; turn++)
        for (size_t k = 0; k < n; k++) {
            const int32_t *at = &p.heads[3 * k], radius = turn ? plan_of(n, 0).heads[3 * k + 2] : 0;
            uint32_t answer = watered_edit(p.n, p.box, p.heads, k, at[0], at[1], radius, LENT(&t));
            expect(answer == WATERED_TAKEN && p.heads[3 * k + 2] == radius, "a head was not closed or opened", n, (long)k);
            expect(work_out(watered_afresh, &p, &fresh) == WATERED_TAKEN && same_rows(&t, &fresh, rows), "a stale table", n, (long)k);
            if (turn == 0 && k + 1 == n)
                for (size_t s = 1; s < rows; s++)
                    expect(start(&t.of[0])[s] == 0, "a row of closed heads", n, (long)s);
        }
    expect(same_rows(&t, &first, rows), "the tables once all heads are opened again", n, 0);
    give_back_tables(&t);
    give_back_tables(&first);
    give_back_tables(&fresh);
}

/* Every choice of closed heads up to six heads, and some of more. */
static void closed_heads(size_t n)
{
    off_and_on(n);
    for (size_t left = 0; left < WATERED_ROWS(n); left += n > 6 ? 29 : 1) {
        closed_tables(watered_afresh, n, left);
        closed_tables(watered_open_afresh, n, left);
        closed_gradients(watered_gradients, n, left, 4);
        closed_gradients(watered_open_gradients, n, left, 0);
        closed_overlap(n, left);
    }
}

static void refusals(void)
{
    for (size_t i = 0; i < sizeof wrong / sizeof *wrong; i++) {
        plan p = changed(wrong[i].at, wrong[i].value), handed = p;
        /* the tables are too short as well: lengths are the last check */
        tables t = lend_same(i % 2 ? 1024 : 3);
        uint8_t told = 99;
        size_t head = 99;
        int32_t any = 99999;
        expect(work_out(watered_afresh, &p, &t) == wrong[i].answer, "the answer of afresh", p.n, (long)i);
        expect(work_out(watered_open_afresh, &p, &t) == wrong[i].answer, "the answer of open afresh", p.n, (long)i);
        expect(watered_edit(p.n, p.box, p.heads, 99, any, any, any, LENT(&t)) == wrong[i].answer, "the answer of an edit", p.n, (long)i);
        expect(watered_run(p.n, p.box, p.heads, &head, 1, &any, 1, &any, 1, &any, 1, &told, 1, LENT(&t)) == 1 && told == wrong[i].answer,
               "the answer of a run", p.n, (long)i);
        expect(all_stay(&t) && !memcmp(&p, &handed, sizeof p), "a refused call wrote", p.n, (long)i);
        give_back_tables(&t);
    }
    for (size_t i = 0; i < sizeof taken / sizeof *taken; i++) {
        plan p = changed(taken[i].at, taken[i].value);
        tables t = lend_same(1024);
        expect(work_out(watered_afresh, &p, &t) == WATERED_TAKEN, "a plan within the limits was refused", p.n, (long)i);
        give_back_tables(&t);
    }
}

/* The names of the header, by the numbers of document 01 and, of a radius, of document 02, slip 6. */
static void names(void)
{
    expect(WATERED_TAKEN == 0 && WATERED_TOO_MANY_HEADS == 2 && WATERED_COORDINATE_OUTSIDE == 4 && WATERED_SIZE_OUTSIDE == 5 &&
               WATERED_NO_SUCH_HEAD == 6 && WATERED_TABLES_TOO_SHORT == 7 && WATERED_RADIUS_OUTSIDE == 11,
           "a name of the header", 0, 0);
}

/* Of two values outside their limits the first in reading order gives the answer: x and y 4, a side 5, a radius 11. */
static void both_outside(void)
{
    static const struct {
        int at[2];
        int32_t value[2];
        uint32_t answer;
    } two[] = {
        {{3, 7}, {0, -1}, 5},      {{4, 7}, {40001, 20001}, 5}, {{2, 3}, {20001, 0}, 4},     {{3, 5}, {-1, 20001}, 5},
        {{7, 8}, {-1, 20001}, 11}, {{6, 7}, {20001, -1}, 4},    {{10, 12}, {20001, -20001}, 11}, {{9, 10}, {-20001, -1}, 4},
        {{4, 34}, {0, -1}, 5},     {{7, 34}, {-1, -1}, 11},     {{31, 32}, {-1, 20001}, 11}, {{32, 34}, {20001, -1}, 4},
    };
    for (size_t i = 0; i < sizeof two / sizeof *two; i++) {
        plan p = changed(two[i].at[0], two[i].value[0]), handed;
        put(&p, two[i].at[1], two[i].value[1]);
        handed = p;
        tables t = lend_same(3);
        expect(work_out(watered_afresh, &p, &t) == two[i].answer, "the first of two values outside", 10, (long)i);
        expect(work_out(watered_open_afresh, &p, &t) == two[i].answer, "the first of two values outside, without the box", 10, (long)i);
        /* whatever is wrong with the edit comes after the plan */
        expect(watered_edit(p.n, p.box, p.heads, 99, 0, 0, 1, LENT(&t)) == two[i].answer, "the first of two values outside, by an edit", 10, (long)i);
        expect(watered_edit(p.n, p.box, p.heads, 0, 0, 0, -1, LENT(&t)) == two[i].answer, "the first of two values outside, by an edit", 10, (long)i);
        expect(all_stay(&t) && !memcmp(&p, &handed, sizeof p), "a refused call wrote", 10, (long)i);
        give_back_tables(&t);
    }
}

/* An edit's checks, in order: head number, x, y, radius, lengths. */
static void edit_refusals(void)
{
    static const struct {
        size_t head;
        int32_t x, y, radius;
        size_t rows;
        uint32_t answer;
    } tried[] = {
        {3, 20001, 0, -1, 0, 6},  {SIZE_MAX, 0, 0, 1, 8, 6}, {0, 20001, 0, -1, 0, 4}, {0, 0, -20001, -1, 0, 4}, {1, 0, 0, -1, 0, 11},
        {1, 0, 0, 20001, 8, 11},  {2, 0, 0, 1, 7, 7},        {2, 0, 0, 1, 0, 7},      {2, 20000, -20000, 20000, 8, 0},
        {2, INT32_MIN, 0, 1, 8, 4}, {2, 0, 0, INT32_MIN, 8, 11}, {1, 0, 0, -1, 8, 11}, {1, 0, 0, 0, 7, 7},      {1, 0, 0, 0, 8, 0},
        {1, 20001, 0, 0, 8, 4},   {3, 0, 0, 0, 8, 6},
    };
    for (size_t i = 0; i < sizeof tried / sizeof *tried; i++) {
        plan p = plan_of(3, 0), handed = p;
        tables t = lend_same(tried[i].rows);
        uint32_t answer = watered_edit(p.n, p.box, p.heads, tried[i].head, tried[i].x, tried[i].y, tried[i].radius, LENT(&t));
        expect(answer == tried[i].answer, "the answer of an edit", 3, (long)i);
        if (answer)
            expect(all_stay(&t) && !memcmp(&p, &handed, sizeof p), "a refused edit wrote", 3, (long)i);
        give_back_tables(&t);
    }
}

/* Document 01's example: 000 4069000000000000, 001 0000000000000000. */
static void example(void)
{
    plan p = {1, {0, 0, 20, 10}, {1000, 1000, 500}};
    tables t = lend_same(2);
    const double want[2] = {200.0, 0.0};
    expect(work_out(watered_afresh, &p, &t) == WATERED_TAKEN, "document 01's example", 1, 0);
    expect(!memcmp(start(&t.of[3]), want, sizeof want) && !memcmp(start(&t.of[2]), "\1\1", 2), "document 01's example", 1, 1);
    give_back_tables(&t);
}

int main(void)
{
    example();
    for (size_t n = 0; n <= WATERED_HEADS; n++) {
        afresh(watered_afresh, n, 1);
        afresh(watered_open_afresh, n, 0);
        gradients(watered_gradients, watered_afresh, n, 3 * n + 4, WATERED_GRADIENTS(n));
        gradients(watered_open_gradients, watered_open_afresh, n, 3 * n, WATERED_OPEN_GRADIENTS(n));
        edits(n);
        runs(n);
        closed_heads(n);
    }
    overlaps();
    names();
    refusals();
    both_outside();
    edit_refusals();
    printf("%lu checks of the calls over plans, %lu faults\n", checks, faults);
    return faults != 0;
}
