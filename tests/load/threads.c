/* threads [PLANS]: every call of include/watered.h that is lent anything, over PLANS plans (default 60), first from one thread, then from eight
 * at once, each with tables and plans of its own: every answer and every byte must be what the one thread got. The threads begin together,
 * each at another place of the list, and have just the 128 KB of stack that the header promises to be enough. The comparison is first tried on
 * a thread that is told a wrong byte. */
#define _DEFAULT_SOURCE
#include "calls.h"

#include <pthread.h>
#include <stdio.h>
#include <stdlib.h>

enum { THREADS = 8, STACK = 1 << 17 };

/* A call with a plan of its own, and what one thread got. */
typedef struct {
    const call *c;
    plan p;
    uint64_t seed;
    uint32_t answer;
    work got;
} trial;

static trial *trials;
static size_t count;
static pthread_barrier_t together;

static uint32_t work_out(const trial *t, work *w)
{
    uint64_t state = t->seed;
    part needs[PARTS];
    size_t counts[PARTS];
    t->c->needs(t->p.n, needs);
    for (int i = 0; i < t->c->parts; i++)
        counts[i] = needs[i].count;
    *w = begin(t->c, &t->p, counts, &state);
    return run(t->c, &t->p, w);
}

typedef struct {
    pthread_t thread;
    size_t from;           /* where in the list it begins */
    unsigned long differ;
} worker;

static void *go_through(void *with)
{
    worker *me = with;
    pthread_barrier_wait(&together);
    for (size_t i = 0; i < count; i++) {
        const trial *t = &trials[(me->from + i) % count];
        work w;
        uint32_t answer = work_out(t, &w);
        if (answer != t->answer || !same(t->c, &w, &t->got))
            me->differ++;
        finish(t->c, &w);
    }
    return NULL;
}

/* How many calls of so many threads at once differ from what one thread got. */
static unsigned long differences(size_t threads)
{
    worker workers[THREADS];
    pthread_attr_t attributes;
    unsigned long differ = 0;
    if (pthread_barrier_init(&together, NULL, (unsigned)threads) || pthread_attr_init(&attributes) || pthread_attr_setstacksize(&attributes, STACK))
        abort();
    for (size_t i = 0; i < threads; i++) {
        workers[i].from = i * count / threads;
        workers[i].differ = 0;
        if (pthread_create(&workers[i].thread, &attributes, go_through, &workers[i]))
            abort();
    }
    for (size_t i = 0; i < threads; i++) {
        pthread_join(workers[i].thread, NULL);
        differ += workers[i].differ;
    }
    pthread_attr_destroy(&attributes);
    pthread_barrier_destroy(&together);
    return differ;
}

static void from_one_thread(size_t plans)
{
    uint64_t state = 16;
    count = plans * CALLS;
    trials = calloc(count, sizeof *trials);
    if (!trials)
        abort();
    for (size_t i = 0; i < count; i++) {
        trial *t = &trials[i];
        t->c = &calls[i % CALLS];
        t->p = random_plan(&state, i % (WATERED_HEADS + 1));
        t->seed = next(&state) + 1;
        t->answer = work_out(t, &t->got);
    }
}

int main(int words, char **word)
{
    unsigned long failed = 0;
    from_one_thread(words > 1 ? strtoul(word[1], NULL, 10) : 60);
    unsigned char *byte = trials[count / 2].got.at[0];
    *byte ^= 1;
    if (differences(1) != 1) {
        printf("fault: a wrong byte was not seen\n");
        failed++;
    }
    *byte ^= 1;
    unsigned long differ = differences(THREADS);
    if (differ)
        printf("fault: %lu calls from %d threads differ from those of one\n", differ, THREADS);
    printf("%7lu calls from %d threads at once with stacks of %d bytes, as from one thread\n", (unsigned long)count * THREADS, THREADS, STACK);
    printf("threads: %lu checks, %lu failed\n", (unsigned long)count * THREADS + 1, failed + differ);
    for (size_t i = 0; i < count; i++)
        finish(trials[i].c, &trials[i].got);
    free(trials);
    return failed + differ != 0;
}
