/* The life of a drawing window: a plan is opened, heads are dragged, one drag is refused, a head is switched off and on again, and in the end the
 * window asks which way to drag next. examples/README.md says how it is built; window.rs and window.py are the same and print the same. */
#include <watered.h>

#include <stdio.h>
#include <stdlib.h>
#include <string.h>

enum { ROWS = 1 << WATERED_HEADS };

/* All that a window keeps of a plan, and all the state there is: the library has none. The tables have room for ten heads, so that they
 * never move; rows 0 to WATERED_ROWS(n) - 1 are in use. */
typedef struct {
    size_t n;
    int32_t box[4];                 /* centre x, centre y, width, height, in centimetres */
    int32_t heads[3 * WATERED_HEADS]; /* x, y, radius of each head: 30 numbers whatever n is */
    uint8_t presence[ROWS];
    double rows[ROWS];
    uint8_t exclusive_presence[ROWS];
    double exclusives[ROWS];
} window;

/* The four tables as the calls take them, each with its count of elements. */
#define TABLES(w) (w)->presence, ROWS, (w)->rows, ROWS, (w)->exclusive_presence, ROWS, (w)->exclusives, ROWS

static const char *words(uint32_t answer)
{
    switch (answer) {
    case WATERED_TAKEN: return "taken";
    case WATERED_TOO_MANY_HEADS: return "there are more than ten heads";
    case WATERED_COORDINATE_OUTSIDE: return "x or y is outside -20000 to 20000";
    case WATERED_SIZE_OUTSIDE: return "a side of the box is outside 1 to 40000";
    case WATERED_NO_SUCH_HEAD: return "there is no head of this number";
    case WATERED_TABLES_TOO_SHORT: return "the tables are too short";
    case WATERED_RADIUS_OUTSIDE: return "a radius is outside 0 to 20000";
    default: return "a number that this program does not know";
    }
}

/* A plan of this program's own is not refused; if it is, there is nothing to show. */
static void demand(const char *what, uint32_t answer)
{
    if (answer == WATERED_TAKEN)
        return;
    fprintf(stderr, "window: %s: refused %u, %s\n", what, (unsigned)answer, words(answer));
    exit(1);
}

/* The heads of a set by their numbers, such as 0,2. */
static const char *set_of(size_t mask, char text[2 * WATERED_HEADS + 1])
{
    size_t length = 0;
    if (mask == 0)
        return "none";
    for (int i = 0; i < WATERED_HEADS; i++)
        if (mask >> i & 1) {
            if (length)
                text[length++] = ',';
            text[length++] = (char)('0' + i);
        }
    text[length] = 0;
    return text;
}

/* Both tables; areas come in square centimetres. A row without presence is no row: its numbers are 0 and mean nothing. */
static void show(const window *w)
{
    char text[2 * WATERED_HEADS + 1];
    printf("  %-8s %12s %12s\n", "heads", "together", "alone");
    for (size_t mask = 0; mask < WATERED_ROWS(w->n); mask++)
        if (w->presence[mask])
            printf("  %-8s %12.2f %12.2f\n", set_of(mask, text), w->rows[mask] / 1e4, w->exclusives[mask] / 1e4);
}

/* One drag. A refused edit leaves plan and tables as they were, so there is nothing to undo: the window goes on with what it has. Here
 * that is looked at; a window need not. */
static void drag(window *w, size_t head, int32_t x, int32_t y, int32_t radius)
{
    const window before = *w;
    uint32_t answer = watered_edit(w->n, w->box, w->heads, head, x, y, radius, TABLES(w));
    printf("\nhead %zu to (%d, %d), radius %d: ", head, (int)x, (int)y, (int)radius);
    if (answer == WATERED_TAKEN) {
        printf("taken\n");
        show(w);
    } else {
        printf("refused %u, %s\n", (unsigned)answer, words(answer));
        printf("  %s\n", memcmp(&before, w, sizeof before) ? "SOMETHING CHANGED" : "nothing changed");
    }
}

/* A head is switched off and on again. With radius 0 it is closed: it keeps its number and its place, and its rows are absent. It is the window that
 * remembers the radius. Opened again, it leaves plan and tables as they were before. */
static void switch_off_and_on(window *w, size_t head)
{
    const window before = *w;
    const int32_t *it = &before.heads[3 * head];
    drag(w, head, it[0], it[1], 0);
    drag(w, head, it[0], it[1], it[2]);
    printf("  plan and tables %s those from before head %zu was closed\n", memcmp(&before, w, sizeof before) ? "ARE NOT" : "are, bit for bit,", head);
}

/* How the ground that only the heads of a set water grows with every number of the plan. By a length it is square centimetres for each
 * centimetre, and a hundredth of that in metres. The gradients of ten heads would be 272 KB: they are asked for when they are needed, not kept. */
static void show_gradient(const window *w, size_t mask)
{
    const size_t width = 3 * w->n + 4, count = WATERED_GRADIENTS(w->n);
    uint8_t presence[ROWS];
    double exclusives[ROWS], *gradients = malloc(count * sizeof *gradients);
    char text[2 * WATERED_HEADS + 1];
    if (!gradients) {
        fprintf(stderr, "window: no memory for the gradients\n");
        exit(1);
    }
    demand("gradients", watered_gradients(w->n, w->box, w->heads, presence, ROWS, exclusives, ROWS, gradients, count));
    const double *row = gradients + mask * width, *box = row + 3 * w->n;
    printf("\nwhat heads %s water alone, in m2 for each metre\n", set_of(mask, text));
    printf("  %-8s %8s %8s %8s\n", "by", "x", "y", "radius");
    for (size_t i = 0; i < w->n; i++)
        printf("  head %-3zu %8.2f %8.2f %8.2f\n", i, row[3 * i] / 100, row[3 * i + 1] / 100, row[3 * i + 2] / 100);
    printf("  %-8s %8.2f %8.2f\n", "box", box[0] / 100, box[1] / 100);
    printf("  and in m2 by ln(width*height) %.2f, by ln(width/height) %.2f\n", box[2] / 1e4, box[3] / 1e4);
    free(gradients);
}

/* The promise of the library: after any edits, refused ones among them, the tables are those worked out from the plan left, in every bit. */
static void hold_against_afresh(const window *w)
{
    window fresh = *w; /* the tables of this copy are written anew */
    demand("afresh", watered_afresh(fresh.n, fresh.box, fresh.heads, TABLES(&fresh)));
    printf("\nthe edited tables %s those worked out afresh\n", memcmp(&fresh, w, sizeof fresh) ? "ARE NOT" : "are, bit for bit,");
}

int main(void)
{
    static window w = {.n = 3, .box = {0, 0, 1200, 900}, .heads = {-350, -150, 380, 150, -80, 350, 100, 250, 300}};
    double overlap;

    demand("afresh", watered_afresh(w.n, w.box, w.heads, TABLES(&w)));
    printf("ground of %.2f by %.2f m, %zu heads, areas in m2\n", w.box[2] / 1e2, w.box[3] / 1e2, w.n);
    show(&w);

    drag(&w, 2, 450, 300, 300);
    drag(&w, 1, 150, -80, -1);
    switch_off_and_on(&w, 1);
    drag(&w, 2, -120, 150, 320);
    hold_against_afresh(&w);

    show_gradient(&w, 1);
    demand("overlap", watered_overlap(w.n, w.box, w.heads, &overlap));
    printf("\nall %zu heads together, without the box: %.2f m2\n", w.n, overlap / 1e4);
    return fflush(stdout) ? 1 : 0;
}
