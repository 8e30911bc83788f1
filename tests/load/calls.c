#include "calls.h"

#include <stdlib.h>
#include <string.h>

/* ---- the calls */

static void tables(size_t n, part *needs)
{
    for (int i = 0; i < 4; i++)
        needs[i] = (part){i % 2 ? sizeof(double) : 1, WATERED_ROWS(n)};
}

static void with_gradients(size_t n, part *needs)
{
    needs[0] = (part){1, WATERED_ROWS(n)};
    needs[1] = (part){sizeof(double), WATERED_ROWS(n)};
    needs[2] = (part){sizeof(double), WATERED_GRADIENTS(n)};
}

static void with_open_gradients(size_t n, part *needs)
{
    with_gradients(n, needs);
    needs[2].count = WATERED_OPEN_GRADIENTS(n);
}

static void one_number(size_t n, part *needs)
{
    (void)n;
    needs[0] = (part){sizeof(double), 1};
}

static void lists_and_tables(size_t n, part *needs)
{
    needs[0] = (part){sizeof(size_t), EDITS};
    for (int i = 1; i < 4; i++)
        needs[i] = (part){sizeof(int32_t), EDITS};
    needs[4] = (part){1, EDITS};
    tables(n, needs + 5);
}

#define TABLES(i) at[i], count[i], at[i + 1], count[i + 1], at[i + 2], count[i + 2], at[i + 3], count[i + 3]

static uint32_t afresh(const plan *p, const int32_t *box, int32_t *heads, void *const at[], const size_t count[])
{
    return watered_afresh(p->n, box, heads, TABLES(0));
}

static uint32_t open_afresh(const plan *p, const int32_t *box, int32_t *heads, void *const at[], const size_t count[])
{
    return watered_open_afresh(p->n, box, heads, TABLES(0));
}

static uint32_t gradients(const plan *p, const int32_t *box, int32_t *heads, void *const at[], const size_t count[])
{
    return watered_gradients(p->n, box, heads, at[0], count[0], at[1], count[1], at[2], count[2]);
}

static uint32_t open_gradients(const plan *p, const int32_t *box, int32_t *heads, void *const at[], const size_t count[])
{
    return watered_open_gradients(p->n, box, heads, at[0], count[0], at[1], count[1], at[2], count[2]);
}

static uint32_t overlap(const plan *p, const int32_t *box, int32_t *heads, void *const at[], const size_t count[])
{
    (void)count;
    return watered_overlap(p->n, box, heads, at[0]);
}

static uint32_t edit(const plan *p, const int32_t *box, int32_t *heads, void *const at[], const size_t count[])
{
    return watered_edit(p->n, box, heads, p->edit_heads[0], p->x[0], p->y[0], p->radius[0], TABLES(0));
}

/* The first edit's answer, or 100 and the number of edits tried where not all of them were. */
static uint32_t run_of_edits(const plan *p, const int32_t *box, int32_t *heads, void *const at[], const size_t count[])
{
    size_t tried = watered_run(p->n, box, heads, at[0], count[0], at[1], count[1], at[2], count[2], at[3], count[3], at[4], count[4], TABLES(5));
    return tried == EDITS ? *(const uint8_t *)at[4] : 100 + (uint32_t)tried;
}

const call calls[CALLS] = {
    {"watered_afresh", 4, 0, 0, 0, 0, tables, afresh},
    {"watered_open_afresh", 4, 0, 0, 0, 0, tables, open_afresh},
    {"watered_gradients", 3, 0, 0, 0, 0, with_gradients, gradients},
    {"watered_open_gradients", 3, 0, 0, 0, 0, with_open_gradients, open_gradients},
    {"watered_overlap", 1, 0, 1, 0, 0, one_number, overlap},
    {"watered_edit", 4, 1, 0, 0, 0, tables, edit},
    {"watered_run", 9, 1, 5, 0x0f, 0x10, lists_and_tables, run_of_edits},
};

/* ---- plans */

uint64_t next(uint64_t *state)
{
    *state ^= *state << 13, *state ^= *state >> 7, *state ^= *state << 17;
    return *state * 2685821657736338717u >> 24;
}

static int32_t between(uint64_t *state, int32_t low, int32_t high) { return low + (int32_t)(next(state) % (uint64_t)(high - low + 1)); }

/* A radius: one in six is that of a closed head. */
static int32_t radius_to(uint64_t *state, int32_t reach) { return next(state) % 6 == 0 ? 0 : between(state, 1, reach); }

/* n heads within the limits, near each other; past them stands what no head may have. One of the edits in five is refused, the first only
 * where there is no head. */
plan random_plan(uint64_t *state, size_t n)
{
    static const int32_t reaches[4] = {8, 60, 2000, 20000};
    int32_t reach = reaches[next(state) % 4];
    plan p = {n, {0}, {0}, {0}, {0}, {0}, {0}};
    for (int i = 0; i < 2; i++) {
        p.box[i] = between(state, -reach, reach);
        p.box[2 + i] = between(state, 1, 2 * reach);
    }
    for (size_t i = 0; i < 30; i++)
        p.heads[i] = i >= 3 * n ? INT32_MIN : i % 3 == 2 ? radius_to(state, reach) : between(state, -reach, reach);
    for (int i = 0; i < EDITS; i++) {
        p.edit_heads[i] = n ? next(state) % n : 0;
        p.x[i] = between(state, -reach, reach);
        p.y[i] = i && next(state) % 5 == 0 ? 20001 : between(state, -reach, reach);
        p.radius[i] = radius_to(state, reach);
    }
    return p;
}

/* ---- one call in memory of its own */

static void lists_of(const plan *p, work *w)
{
    const void *from[4] = {p->edit_heads, p->x, p->y, p->radius};
    for (int i = 0; i < 4; i++)
        memcpy(w->at[i], from[i], w->parts[i].size * (w->parts[i].count < EDITS ? w->parts[i].count : EDITS));
}

work begin(const call *c, const plan *p, const size_t count[PARTS], uint64_t *state)
{
    work w;
    memset(&w, 0, sizeof w);
    memcpy(w.box, p->box, sizeof w.box);
    memcpy(w.heads, p->heads, sizeof w.heads);
    c->needs(p->n <= WATERED_HEADS ? p->n : 0, w.parts);
    for (int i = 0; i < c->parts; i++) {
        w.parts[i].count = count[i];
        w.at[i] = malloc(w.parts[i].size * count[i] + 1);
        if (!w.at[i])
            abort();
        for (size_t k = 0; k < w.parts[i].size * count[i]; k++)
            ((unsigned char *)w.at[i])[k] = (unsigned char)next(state);
    }
    if (has_lists(c))
        lists_of(p, &w);
    if (c->moves) {
        int first = c->tables;
        size_t counts[4] = {count[first], count[first + 1], count[first + 2], count[first + 3]};
        afresh(p, w.box, w.heads, w.at + first, counts);
    }
    return w;
}

uint32_t run(const call *c, const plan *p, work *w)
{
    size_t count[PARTS];
    for (int i = 0; i < c->parts; i++)
        count[i] = w->parts[i].count;
    return c->run(p, w->box, w->heads, w->at, count);
}

int same(const call *c, const work *one, const work *other)
{
    if (memcmp(one->box, other->box, sizeof one->box) || memcmp(one->heads, other->heads, sizeof one->heads))
        return 0;
    for (int i = 0; i < c->parts; i++)
        if (one->parts[i].count != other->parts[i].count || memcmp(one->at[i], other->at[i], one->parts[i].size * one->parts[i].count))
            return 0;
    return 1;
}

void finish(const call *c, work *w)
{
    for (int i = 0; i < c->parts; i++)
        free(w->at[i]);
}
