/* pages [PLANS]: every call of include/watered.h that is lent anything, with each slice, the box and the heads in pages of their own between
 * two pages that may not be touched: at the end of them, so that a read or a write of the byte after it traps, and at the beginning, so that one
 * of the byte before it does. What a call only reads, and all that a refused call must leave, stands in pages that may not be written.
 * Every call is held against the same call in ordinary memory. That a stray access is seen is shown first, in children that die of it. */
#define _DEFAULT_SOURCE
#include "calls.h"

#include <signal.h>
#include <stdio.h>
#include <stdlib.h>
#include <string.h>
#include <sys/mman.h>
#include <sys/resource.h>
#include <sys/wait.h>
#include <unistd.h>

enum { AT_END, AT_BEGINNING, SIDES };
static const char *const sides[SIDES] = {"at the end of a page", "at the beginning of a page"};

static unsigned long checks, faults;
static char doing[200]; /* the call under way, for the handler */

static void expect(int right, const char *what)
{
    checks++;
    if (!right && faults++ < 20)
        printf("fault: %s: %s\n", what, doing);
}

/* A trap in the library's call: say in which, and end. */
static void trapped(int signal)
{
    static const char words[] = "fault: a stray access: ";
    (void)signal;
    if (write(1, words, sizeof words - 1) < 0 || write(1, doing, strlen(doing)) < 0 || write(1, "\n", 1) < 0)
        _exit(2);
    _exit(1);
}

/* ---- slices at the edge of a page */

typedef struct {
    unsigned char *map, *at; /* the pages, those that may not be touched among them; the slice */
    size_t pages, bytes;     /* that may be touched; of the slice */
} lent;

static size_t page;

/* A slice of no bytes stands where nothing may be touched, before it or after it. */
static lent lend(const void *from, size_t bytes, int side)
{
    lent l = {NULL, NULL, (bytes + page - 1) / page, bytes};
    l.map = mmap(NULL, (l.pages + 2) * page, PROT_NONE, MAP_PRIVATE | MAP_ANONYMOUS, -1, 0);
    if (l.map == MAP_FAILED || (l.pages && mprotect(l.map + page, l.pages * page, PROT_READ | PROT_WRITE)))
        abort();
    l.at = l.map + page + (side == AT_END ? l.pages * page - bytes : 0);
    if (bytes)
        memcpy(l.at, from, bytes);
    return l;
}

static void forbid_writing(const lent *l)
{
    if (l->pages && mprotect(l->map + page, l->pages * page, PROT_READ))
        abort();
}

static void give_back(lent *l) { munmap(l->map, (l->pages + 2) * page); }

/* ---- a call with all that it is lent at the edge of a page */

typedef struct {
    lent box, heads, parts[PARTS];
} edge;

static edge lend_all(const call *c, const work *w, int side)
{
    edge e;
    e.box = lend(w->box, sizeof w->box, side);
    e.heads = lend(w->heads, sizeof w->heads, side);
    for (int i = 0; i < c->parts; i++)
        e.parts[i] = lend(w->at[i], w->parts[i].size * w->parts[i].count, side);
    return e;
}

/* A refused edit stores the heads all the same, with the value that they had. */
static void protect(const call *c, const edge *e, int refused)
{
    forbid_writing(&e->box);
    if (!c->moves)
        forbid_writing(&e->heads);
    for (int i = 0; i < c->parts; i++)
        if (c->read_only >> i & 1 || (refused && !(c->even_refused >> i & 1)))
            forbid_writing(&e->parts[i]);
}

static uint32_t run_lent(const call *c, const plan *p, const edge *e, const size_t count[])
{
    void *at[PARTS];
    for (int i = 0; i < c->parts; i++)
        at[i] = e->parts[i].at;
    return c->run(p, (const int32_t *)(void *)e->box.at, (int32_t *)(void *)e->heads.at, at, count);
}

static int same_bytes(const call *c, const edge *e, const work *w)
{
    int right = !memcmp(e->box.at, w->box, sizeof w->box) && !memcmp(e->heads.at, w->heads, sizeof w->heads);
    for (int i = 0; i < c->parts; i++)
        right = right && (!e->parts[i].bytes || !memcmp(e->parts[i].at, w->at[i], e->parts[i].bytes));
    return right;
}

static void give_all_back(const call *c, edge *e)
{
    give_back(&e->box);
    give_back(&e->heads);
    for (int i = 0; i < c->parts; i++)
        give_back(&e->parts[i]);
}

/* The call on both sides of a page, with these counts: this answer, and every byte as in ordinary memory. */
static void try_call(const call *c, const plan *p, const size_t count[], uint32_t answer)
{
    static uint64_t state = 88172645463325252u;
    for (int side = 0; side < SIDES; side++) {
        work w = begin(c, p, count, &state);
        edge e = lend_all(c, &w, side);
        protect(c, &e, answer != WATERED_TAKEN && answer < 100);
        snprintf(doing, sizeof doing, "%s of %zu heads, answer %u, %s", c->name, p->n, answer, sides[side]);
        expect(run(c, p, &w) == answer, "the answer in ordinary memory");
        expect(run_lent(c, p, &e, count) == answer, "the answer at a page");
        expect(same_bytes(c, &e, &w), "other bytes than in ordinary memory");
        give_all_back(c, &e);
        finish(c, &w);
    }
}

static void counts_of(const call *c, size_t n, size_t count[PARTS])
{
    part needs[PARTS];
    c->needs(n, needs);
    for (int i = 0; i < c->parts; i++)
        count[i] = needs[i].count;
}

/* ---- the lengths: exact, longer, one short, one, none */

/* A plan of no heads has no head to edit: refusal 6 comes before the lengths. */
static uint32_t wanted(const call *c, const plan *p, uint32_t otherwise) { return c->moves && p->n == 0 ? WATERED_NO_SUCH_HEAD : otherwise; }

static void lengths(const call *c, const plan *p)
{
    size_t exact[PARTS], count[PARTS];
    counts_of(c, p->n, exact);
    try_call(c, p, exact, wanted(c, p, WATERED_TAKEN));
    for (int i = 0; i < c->parts; i++)
        count[i] = exact[i] + (i >= c->tables ? (size_t)i + 1 : 0);
    try_call(c, p, count, wanted(c, p, WATERED_TAKEN));
    for (int i = 0; i < c->parts; i++) {
        const size_t shorter[3] = {exact[i] - 1, 1, 0};
        for (int k = 0; k < 3 && i >= c->tables && exact[i]; k++) {
            if (shorter[k] == exact[i])
                continue;
            memcpy(count, exact, sizeof count);
            count[i] = shorter[k];
            try_call(c, p, count, wanted(c, p, WATERED_TABLES_TOO_SHORT));
        }
    }
    for (int i = 0; i < c->parts; i++)
        count[i] = i >= c->tables ? 0 : exact[i];
    if (c->tables < c->parts)
        try_call(c, p, count, wanted(c, p, WATERED_TABLES_TOO_SHORT));
}

/* A run's lists: the shortest of them says how many edits are tried, and no list is read or written beyond. */
static void short_lists(const call *c, const plan *p)
{
    size_t count[PARTS];
    for (int i = 0; has_lists(c) && i < c->tables; i++)
        for (size_t few = 0; few < EDITS; few++) {
            counts_of(c, p->n, count);
            count[i] = few;
            try_call(c, p, count, 100 + (uint32_t)few);
        }
}

/* ---- plans and edits that are refused */

/* With tables of the right length and with none: the same answer, since lengths are the last check. */
static void try_refused(const call *c, const plan *p, size_t n, uint32_t answer)
{
    size_t count[PARTS];
    counts_of(c, n, count);
    try_call(c, p, count, answer);
    for (int i = c->tables; i < c->parts; i++)
        count[i] = 0;
    try_call(c, p, count, answer);
}

static void refused_plans(const call *c, const plan *good)
{
    static const struct {
        int at; /* 0 to 3 the box, 4 to 33 the heads */
        int32_t value;
        uint32_t answer;
    } wrong[] = {{0, 20001, 4}, {1, -20001, 4}, {2, 0, 5}, {3, 40001, 5}, {4, INT32_MIN, 4}, {5, INT32_MAX, 4}, {6, -1, 11}, {33, 20001, 11}};
    static const size_t too_many[3] = {11, 64, SIZE_MAX};
    for (size_t i = 0; i < sizeof wrong / sizeof *wrong; i++) {
        plan p = *good;
        *(wrong[i].at < 4 ? &p.box[wrong[i].at] : &p.heads[wrong[i].at - 4]) = wrong[i].value;
        try_refused(c, &p, p.n, wrong[i].answer);
    }
    for (int i = 0; i < 3; i++) {
        plan p = *good;
        p.n = too_many[i];
        try_refused(c, &p, WATERED_HEADS, WATERED_TOO_MANY_HEADS);
    }
}

/* Every edit is wrong in the same way. */
static void refused_edits(const call *c, const plan *good)
{
    static const struct {
        size_t head;
        int32_t x, y, radius;
        uint32_t answer;
    } wrong[] = {{10, 0, 0, 1, 6}, {SIZE_MAX, 0, 0, 1, 6}, {0, 20001, 0, 1, 4}, {9, 0, -20001, 1, 4}, {0, 0, 0, -1, 11}, {9, 0, 0, 20001, 11}};
    for (size_t i = 0; i < sizeof wrong / sizeof *wrong; i++) {
        plan p = *good;
        for (int k = 0; k < EDITS; k++) {
            p.edit_heads[k] = wrong[i].head;
            p.x[k] = wrong[i].x, p.y[k] = wrong[i].y, p.radius[k] = wrong[i].radius;
        }
        try_refused(c, &p, p.n, wrong[i].answer);
    }
}

/* ---- strays that must be seen */

/* Whether what a child does ends it by the trap. */
static int traps(void (*stray)(void *), void *with)
{
    fflush(stdout);
    pid_t child = fork();
    if (child == 0) {
        struct rlimit none = {0, 0};
        setrlimit(RLIMIT_CORE, &none);
        signal(SIGSEGV, SIG_DFL);
        stray(with);
        _exit(0);
    }
    int status;
    return child > 0 && waitpid(child, &status, 0) == child && WIFSIGNALED(status) && WTERMSIG(status) == SIGSEGV;
}

static void read_after(void *l) { (void)*(volatile unsigned char *)(((lent *)l)->at + ((lent *)l)->bytes); }
static void read_before(void *l) { (void)*(volatile unsigned char *)(((lent *)l)->at - 1); }
static void write_after(void *l) { *(volatile unsigned char *)(((lent *)l)->at + ((lent *)l)->bytes) = 1; }
static void write_before(void *l) { *(volatile unsigned char *)(((lent *)l)->at - 1) = 1; }
static void write_in(void *l) { *(volatile unsigned char *)((lent *)l)->at = 1; }
static void read_in(void *l) { (void)*(volatile unsigned char *)((lent *)l)->at; }

static void strays_by_hand(void)
{
    static const unsigned char bytes[5000];
    static const size_t sizes[4] = {1, 24, 4096, 5000};
    for (int i = 0; i < 4; i++) {
        lent end = lend(bytes, sizes[i], AT_END), beginning = lend(bytes, sizes[i], AT_BEGINNING);
        snprintf(doing, sizeof doing, "a slice of %zu bytes", sizes[i]);
        expect(!traps(read_in, &end) && !traps(write_in, &beginning), "an access within the slice traps");
        expect(traps(read_after, &end) && traps(write_after, &end), "an access after the slice does not trap");
        expect(traps(read_before, &beginning) && traps(write_before, &beginning), "an access before the slice does not trap");
        forbid_writing(&end);
        expect(!traps(read_in, &end) && traps(write_in, &end), "a write to what is only read does not trap");
        give_back(&end);
        give_back(&beginning);
    }
    lent none = lend(bytes, 0, AT_END);
    expect(traps(read_in, &none) && traps(read_before, &none), "a read at a slice of no bytes does not trap");
    give_back(&none);
}

typedef struct {
    const call *c;
    const plan *p;
    edge *e;
    size_t count[PARTS];
} attempt;

static void run_attempt(void *with)
{
    attempt *a = with;
    run_lent(a->c, a->p, a->e, a->count);
}

/* The library told of one element more than there is, at each end of each part in turn: it goes to every element, so it traps. */
static void strays_of_the_library(const call *c, const plan *p)
{
    uint64_t state = 5;
    attempt a = {c, p, NULL, {0}};
    counts_of(c, p->n, a.count);
    for (int side = 0; side < SIDES; side++) {
        work w = begin(c, p, a.count, &state);
        edge e = lend_all(c, &w, side);
        a.e = &e;
        snprintf(doing, sizeof doing, "%s of %zu heads, %s", c->name, p->n, sides[side]);
        expect(!traps(run_attempt, &a), "a call with all that it needs traps");
        for (int i = -2; i < c->parts; i++) {
            lent *l = i == -2 ? &e.box : i == -1 ? &e.heads : &e.parts[i];
            long size = i < 0 ? (long)sizeof(int32_t) : (long)w.parts[i].size;
            if (l->bytes == 0)
                continue;
            l->at += side == AT_END ? size : -size;
            expect(traps(run_attempt, &a), i < 0 ? "the plan one number short does not trap" : "a part one element short does not trap");
            l->at -= side == AT_END ? size : -size;
        }
        give_all_back(c, &e);
        finish(c, &w);
    }
}

int main(int count, char **words)
{
    uint64_t state = 20000;
    unsigned long plans = count > 1 ? strtoul(words[1], NULL, 10) : 2;
    page = (size_t)sysconf(_SC_PAGESIZE);
    strays_by_hand();
    plan ten = random_plan(&state, 10);
    for (int i = 0; i < CALLS; i++)
        strays_of_the_library(&calls[i], &ten);
    unsigned long strays = checks;
    signal(SIGSEGV, trapped);
    signal(SIGBUS, trapped);
    for (int i = 0; i < CALLS; i++) {
        for (size_t n = 0; n <= WATERED_HEADS; n++)
            for (unsigned long k = 0; k < plans; k++) {
                plan p = random_plan(&state, n);
                lengths(&calls[i], &p);
                if (n)
                    short_lists(&calls[i], &p);
            }
        refused_plans(&calls[i], &ten);
        if (calls[i].moves)
            refused_edits(&calls[i], &ten);
    }
    printf("%7lu checks that strays trap and nothing else does, %lu of calls at protected pages\n", strays, checks - strays);
    printf("pages: %lu checks, %lu failed\n", checks, faults);
    return faults != 0;
}
