/* The C interface of the library watered, which says what ground sprinkler heads water, in tables that stay right while heads are moved.
 * Every call is proved against its definition (docs/CLAIMS.md of the sources). Link with -lwatered -lm; examples/window.c is a whole program.
 *
 * ---- What is handed over
 *
 * A PLAN is a ground, the box, and up to ten heads on it, in whole centimetres. It is handed to each call as three arguments:
 *
 *   n      how many heads there are, 0 to 10;
 *   box    centre x, centre y, width, height: x and y from -20000 to 20000, width and height from 1 to 40000;
 *   heads  x, y and radius of head 0, then of head 1, and so on: x and y from -20000 to 20000, radius from 0 to 20000. ALWAYS 30 readable
 *          numbers: those past the n heads may be anything, change nothing and stay.
 *
 * A head of radius 0 is CLOSED: it keeps its number and its place, but waters nothing. It meets no head, contains none, lies in none and is in no
 * set: rows that name it are absent, and everything else is as if it were not there. An edit to another radius opens it.
 *
 * A SET of heads is a mask: bit i stands if head i is in the set. A TABLE has one row for each mask, row S at index S: a presence byte, 0 or 1,
 * and a number, an area in square centimetres. An absent row has byte 0 and the number +0. There are two tables of a plan with the same bytes:
 *
 *   rows        row S is the area that all heads of S water together; row 0 is the area of the box;
 *   exclusives  row S is the area that exactly the heads of S water and no other does; row 0 is what no head waters. Never below zero.
 *
 * All numbers are finite. Only ground in the box counts, but for the calls named `open`, which have no box and no row 0. Present are row 0, and of
 * the heads that are not closed each by itself, each two that touch, cross or contain one another, and of the larger sets those that share ground,
 * by the rule of the Rust crate eunoia, from which the geometry is carried over. Two things of that rule are to be known:
 *
 *   - a set of three heads or more may be absent although its heads share ground, where further heads cover that ground (example/corner.txt of
 *     the sources);
 *   - where one head touches another EXACTLY from inside (the distance of the centres is the difference of the radii), the inner one gets no arc
 *     in sets of two or more unless further heads cross it, and the row of both may be 0, or below zero, although they share ground. A centimetre
 *     further in or out it is right.
 *
 * A table is lent as pointer and count for its bytes and pointer and count for its numbers. A COUNT IS A NUMBER OF ELEMENTS, not of bytes.
 * WATERED_ROWS(n) of each are enough, and room for ten heads (WATERED_ROWS(WATERED_HEADS)) always is.
 *
 * ---- What is written
 *
 * Each call over plans answers 0 (WATERED_TAKEN), or the number of the first check that failed, the refusal (watered_run gives such answers in a
 * list). Checks come in the order n; box; heads, each by x, y, radius; the edit's head number, x, y, radius; the lengths of all tables lent. The
 * numbers do not follow this order.
 *
 *   taken    elements 0 to WATERED_ROWS(n) - 1 of every table lent are written, whatever stood there; what stands beyond them stays.
 *   refused  A REFUSED CALL CHANGES NOTHING: every table, `heads` and *overlap keep their values.
 *
 * The box is never written. `heads` is written by watered_edit and watered_run alone: they store all 30 numbers, those that do not change with the
 * value they had, so that it must be writable even for an edit that is refused.
 *
 * ---- What a caller must see to
 *
 * No pointer may be NULL, even where its count is 0; each points to as many elements as its count says, aligned as C demands. What a call writes
 * must not overlap anything else that is handed to the same call. Nothing of this can be checked, and there is no refusal for it.
 *
 * The processor's modes of floating point must be those that a program starts with: rounding to nearest, and no flush to zero (which gcc's
 * -ffast-math turns on for a whole program when it is linked). With others the numbers are not the ones promised.
 *
 * THREADS: the library has no state: no variable of its own, no allocation, no file, no lock, nothing to set up or to end. Any number of threads
 * may call at once, as long as what a call writes is not read or written by another meanwhile. A call does not recurse, and 128 KB of stack are
 * enough for it. */
#ifndef WATERED_H
#define WATERED_H

#include <stddef.h>
#include <stdint.h>

#ifdef __cplusplus
extern "C" {
#endif

/* ---- sizes and answers */

/* How many heads a plan may have. */
#define WATERED_HEADS 10

/* How many rows the tables of n heads have, for n from 0 to WATERED_HEADS: bytes and numbers of each table. */
#define WATERED_ROWS(n) ((size_t)1 << (n))

/* How many numbers their gradients have, 3n + 4 a row in the box and 3n without it: at most 34816 (272 KB) and 30720. */
#define WATERED_GRADIENTS(n) (WATERED_ROWS(n) * (3 * (size_t)(n) + 4))
#define WATERED_OPEN_GRADIENTS(n) (WATERED_ROWS(n) * (3 * (size_t)(n)))

/* Answers: 0, or the refusal. */
#define WATERED_TAKEN 0
/* n is above 10 */
#define WATERED_TOO_MANY_HEADS 2
/* x or y of the box, of a head or of the edit is outside -20000 to 20000 */
#define WATERED_COORDINATE_OUTSIDE 4
/* a side of the box is outside 1 to 40000; an edit's own values never give this */
#define WATERED_SIZE_OUTSIDE 5
/* the edit's head number is not below n */
#define WATERED_NO_SUCH_HEAD 6
/* a table has fewer than WATERED_ROWS(n) bytes or numbers, or the gradients have too few numbers */
#define WATERED_TABLES_TOO_SHORT 7
/* the radius of a head or of the edit is below 0 or above 20000 (libraries before 1.1.0 answered 5); radius 0 is taken, that of a closed head */
#define WATERED_RADIUS_OUTSIDE 11
/* 1 and 3 are refusals of plan files, which no call here gives. */

/* ---- tables of a plan */

/* Both tables of a plan in its box, worked out from the plan alone: writes rows 0 to WATERED_ROWS(n) - 1 of `presence` and `rows` (the first
 * table) and of `exclusive_presence` and `exclusives` (the second). The four counts may differ. Refusals 2, 4, 5, 7, 11. */
uint32_t watered_afresh(size_t n, const int32_t box[4], const int32_t heads[30],
                        uint8_t *presence, size_t presence_count, double *rows, size_t rows_count,
                        uint8_t *exclusive_presence, size_t exclusive_presence_count,
                        double *exclusives, size_t exclusives_count);

/* The same without the box, whose fields are checked all the same: row 0 is absent, and ground outside the box counts. watered_edit is not for
 * these tables: it works in the box. Refusals 2, 4, 5, 7, 11. */
uint32_t watered_open_afresh(size_t n, const int32_t box[4], const int32_t heads[30],
                             uint8_t *presence, size_t presence_count, double *rows, size_t rows_count,
                             uint8_t *exclusive_presence, size_t exclusive_presence_count,
                             double *exclusives, size_t exclusives_count);

/* ---- gradients and overlap */

/* The exclusives of a plan in its box, and how each changes with every number of the plan: writes `presence` and `exclusives`, WATERED_ROWS(n)
 * of each, and WATERED_GRADIENTS(n) numbers of `gradients`, of which row S begins at S*(3n+4):
 *
 *   gradients[S*(3n+4) + 3*i + 0, 1, 2]   by x, y, radius of head i, for i from 0 to n-1, in square centimetres for each centimetre;
 *   gradients[S*(3n+4) + 3*n + 0, 1]      by the box's centre x and centre y, likewise;
 *   gradients[S*(3n+4) + 3*n + 2, 3]      by ln(width*height) and ln(width/height), in square centimetres.
 *
 * Absent rows have +0 throughout, and every row, row 0 too, has +0 by the three numbers of a closed head. An exclusive below zero becomes +0, and
 * its gradient row all +0; no other number is replaced.
 * `gradients_count` is a number of numbers, at least WATERED_GRADIENTS(n). Refusals 2, 4, 5, 7, 11. */
uint32_t watered_gradients(size_t n, const int32_t box[4], const int32_t heads[30],
                           uint8_t *presence, size_t presence_count, double *exclusives, size_t exclusives_count,
                           double *gradients, size_t gradients_count);

/* The same without the box, whose fields are checked all the same: row 0 is absent, and row S begins at S*3n, with no entries of the box.
 * `gradients_count` is at least WATERED_OPEN_GRADIENTS(n), which is 0 for no heads; the pointer is not NULL even then. Refusals 2, 4, 5, 7, 11. */
uint32_t watered_open_gradients(size_t n, const int32_t box[4], const int32_t heads[30],
                                uint8_t *presence, size_t presence_count, double *exclusives, size_t exclusives_count,
                                double *gradients, size_t gradients_count);

/* Writes *overlap: the area that all heads but the closed ones water together, without the box, whose fields are checked all the same, in square
 * centimetres; 0 where there is no such head. Refusals 2, 4, 5, 11. */
uint32_t watered_overlap(size_t n, const int32_t box[4], const int32_t heads[30], double *overlap);

/* ---- edits
 *
 * Begin with watered_afresh, and hand the same heads and tables to each edit. An edit moves one head, closes it by radius 0 or opens it by another,
 * and brings both tables of the plan in its box up to it. After any list of edits, refused ones among them, they are, bit for bit, what
 * watered_afresh gives of the plan left.
 *
 * The calls do not look whether the tables handed in are the plan's. The presence bytes are not read but written anew. Worked out are a row with
 * the head, a row of two heads or more with a head that the moved one meets before or after, and a row newly present; every other row still
 * present keeps its number as it was handed in, and so does row 0. The exclusives are worked out from the rows left. */

/* Head number `head`, from 0, gets the place (x, y) and the radius: writes the three numbers into `heads`, and rows 0 to WATERED_ROWS(n) - 1 of
 * both tables. Refusals 2, 4, 5, 6, 7, 11, after which `heads` and the tables are as they were. */
uint32_t watered_edit(size_t n, const int32_t box[4], int32_t heads[30],
                      size_t head, int32_t x, int32_t y, int32_t radius,
                      uint8_t *presence, size_t presence_count, double *rows, size_t rows_count,
                      uint8_t *exclusive_presence, size_t exclusive_presence_count,
                      double *exclusives, size_t exclusives_count);

/* A list of edits, each tried on what the one before left; a refused one leaves all as it was and the list goes on. Edit i is edit_heads[i],
 * x[i], y[i], radius[i]. Writes answers[i], 0 or the refusal's number (2, 4, 5, 6, 7, 11) as watered_edit would answer, and leaves `heads` and the
 * tables as those calls would: a plan that is refused, or a table that is too short, refuses every edit.
 *
 * Gives no answer of its own but how many edits were tried: as many as the shortest of the five lists allows, `answers` among them, so a result
 * below the length of your lists means that they were cut. Answers past that count keep their values. */
size_t watered_run(size_t n, const int32_t box[4], int32_t heads[30],
                   const size_t *edit_heads, size_t edit_heads_count, const int32_t *x, size_t x_count,
                   const int32_t *y, size_t y_count, const int32_t *radius, size_t radius_count,
                   uint8_t *answers, size_t answers_count,
                   uint8_t *presence, size_t presence_count, double *rows, size_t rows_count,
                   uint8_t *exclusive_presence, size_t exclusive_presence_count,
                   double *exclusives, size_t exclusives_count);

/* ---- numbers
 *
 * The functions that everything above stands on. They write nothing and refuse nothing. */

/* The IEEE 754 square root, rounded to nearest, ties to even, of a finite x not below zero; the root of -0 is -0.
 * Numbers below zero, NaN and infinities give +0. */
double watered_root(double x);

/* watered_root(a * a + b * b), each step rounded. */
double watered_hypot(double a, double b);

/* Sine and cosine for |v| <= 16: within 2^-40 of the first 40 terms of the Taylor series at v, and in -1 to 1. Any other v,
 * NaN and infinities included, gives +0. */
double watered_sin(double v);
double watered_cos(double v);

/* The angle t of the point (x, y), for magnitudes up to 2^20 that are not both zero: |t| is at most the double nearest to pi,
 * |x*S - y*C| <= 2^-40 * (|x| + |y|) and x*C + y*S > 0, where S and C are the 40-term sums of sine and cosine at t; signs of zero
 * as in IEEE 754. Any other pair gives +0. */
double watered_atan2(double y, double x);

/* watered_atan2(watered_root((1 - c) * (1 + c)), c) and watered_atan2(c, watered_root((1 - c) * (1 + c))), each step rounded, for c from
 * -1 to 1. Any other c gives +0. */
double watered_acos(double c);
double watered_asin(double c);

#ifdef __cplusplus
}
#endif

#endif
