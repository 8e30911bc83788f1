/* Every call over plans of ten heads, in a thread that has the 128 KB of stack that the header promises to be enough; a call that wants more
 * runs into the page behind it. Prints the answers. */
#include <watered.h>

#include <pthread.h>
#include <stdio.h>

enum { ROWS = 1 << WATERED_HEADS, STACK = 128 * 1024 };

static uint8_t presence[ROWS], exclusive_presence[ROWS], answers[1];
static double rows[ROWS], exclusives[ROWS], gradients[WATERED_GRADIENTS(WATERED_HEADS)], overlap;
static const int32_t box[4] = {0, 0, 2000, 1500};
static int32_t heads[30];
static uint32_t got[7];

#define PLAN WATERED_HEADS, box, heads
#define TABLES presence, ROWS, rows, ROWS, exclusive_presence, ROWS, exclusives, ROWS
#define SLOPES presence, ROWS, exclusives, ROWS, gradients, sizeof gradients / sizeof *gradients

static void *calls(void *none)
{
    const size_t head[1] = {7};
    const int32_t x[1] = {5}, y[1] = {-5}, radius[1] = {444};
    got[0] = watered_open_afresh(PLAN, TABLES);
    got[1] = watered_gradients(PLAN, SLOPES);
    got[2] = watered_open_gradients(PLAN, SLOPES);
    got[3] = watered_overlap(PLAN, &overlap);
    got[4] = watered_afresh(PLAN, TABLES);
    got[5] = watered_edit(PLAN, 3, 10, 20, 500, TABLES);
    got[6] = watered_run(PLAN, head, 1, x, 1, y, 1, radius, 1, answers, 1, TABLES) == 1 ? answers[0] : 99;
    return none;
}

int main(void)
{
    pthread_attr_t attributes;
    pthread_t thread;
    /* all of them cross each other, so that every list inside the calls is long */
    for (int i = 0; i < WATERED_HEADS; i++)
        heads[3 * i] = 37 * i - 150, heads[3 * i + 1] = i * i * 31 % 170 - 80, heads[3 * i + 2] = 300 + 17 * i;
    if (pthread_attr_init(&attributes) || pthread_attr_setstacksize(&attributes, STACK) || pthread_create(&thread, &attributes, calls, NULL) ||
        pthread_join(thread, NULL)) {
        fprintf(stderr, "stack: no thread\n");
        return 1;
    }
    for (int i = 0; i < 7; i++)
        printf("%u", (unsigned)got[i]);
    printf("\n");
    return 0;
}
