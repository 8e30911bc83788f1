/* The calls of include/watered.h over plans, each in one shape: a plan, and parts (slices) lent beside it. For pages.c and threads.c. */
#ifndef CALLS_H
#define CALLS_H

#include "watered.h"

enum { CALLS = 7, PARTS = 9, EDITS = 6 };

/* A plan, and edits for the calls that take them: the first for watered_edit, all for watered_run. */
typedef struct {
    size_t n;
    int32_t box[4];
    int32_t heads[30];
    size_t edit_heads[EDITS];
    int32_t x[EDITS], y[EDITS], radius[EDITS];
} plan;

/* A part: the size of an element, and how many there are. */
typedef struct {
    size_t size, count;
} part;

typedef struct {
    const char *name;
    int parts;
    int moves;             /* the call writes the heads */
    int tables;            /* the first part that is a table; those before it are never too short: a run's lists and answers, the overlap */
    unsigned read_only;    /* the parts that the call only reads, a bit each */
    unsigned even_refused; /* the parts that it writes even where every edit is refused */
    void (*needs)(size_t n, part *needs);
    uint32_t (*run)(const plan *p, const int32_t *box, int32_t *heads, void *const at[], const size_t count[]);
} call;

extern const call calls[CALLS];

/* A run's lists and answers come first. */
static inline int has_lists(const call *c) { return c->tables == 5; }

/* What one call reads and writes, in memory of its own. */
typedef struct {
    int32_t box[4], heads[30];
    part parts[PARTS];
    void *at[PARTS];
} work;

uint64_t next(uint64_t *state);
plan random_plan(uint64_t *state, size_t n);

/* Parts of these counts, filled: lists from the plan, tables with the plan's own where there is room for them, else with any bytes. */
work begin(const call *c, const plan *p, const size_t count[PARTS], uint64_t *state);
uint32_t run(const call *c, const plan *p, work *w);
/* Whether two have the same bytes in every part and in the plan. */
int same(const call *c, const work *one, const work *other);
void finish(const call *c, work *w);

#endif
