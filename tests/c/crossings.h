/* Calls with a room and counts, as calls of numbers: the answer is the counts, then the numbers of the hits.
 *
 * `marks` holds those of the first curve, sixteen times those of the second, and 256 times the depth. */
#ifndef CROSSINGS_H
#define CROSSINGS_H

#include "calls.h"

#define CCW ARCS_MARK_CCW
#define CLOSED ARCS_MARK_CLOSED
#define ELLIPSE ARCS_MARK_ELLIPSE
#define SEGMENT ARCS_MARK_SEGMENT
#define PAIR(a_marks, b_marks, depth) ((a_marks) | (b_marks) << 4 | (depth) << 8)
#define A_MARKS(marks) ((marks) & 15u)
#define B_MARKS(marks) ((marks) >> 4 & 15u)
#define DEPTH(marks) ((marks) >> 8)

/* More than two turns of an ellipse and a part of another, which the turns cross four times each; both the other way round. */
#define TURNS 0.5, -0.25, 6.0, 2.5, 0.3, 0.9, 15.5
#define TURNS_BACK 0.5, -0.25, 6.0, 2.5, 0.3, 15.5, 0.9
#define PART -0.4, 0.35, 3.1, 5.2, -0.2, -1.1, 3.9
#define PART_BACK -0.4, 0.35, 3.1, 5.2, -0.2, 3.9, -1.1
/* Two circles, whose radius_b and rotation are only tested. */
#define ROUND 1.5, -2.0, 5.0, 9.0, 0.7, -0.5, 3.0
#define OTHER 4.5, 2.5, 3.5, 8.0, -0.3, 0.4, 5.75
/* An edge of an ellipse that ends at (2, 0), and a round whose rim goes through that point. */
#define EDGE 0.0, 0.0, 2.0, 1.0, 0.0, -1.0, 0.0
#define RIM 2.0, 1.0, 1.0, 1.0, 0.0, 0.0, 0.0
/* A segment across an arc; the arc the other way round. */
#define CUT -9.0, -3.5, 12.0, 4.5
#define BOWL 0.5, 0.25, 7.0, 3.0, 0.4, -0.6, 2.1
#define BOWL_BACK 0.5, 0.25, 7.0, 3.0, 0.4, 3.3, -0.6

/* More than any call needs: depth 3 has 2,048 cells. */
enum { ROOM = 8200, COUNTS = 8, MOST_COUNTS = 6 };

struct lent {
    double room[ROOM];
    uint64_t counts[COUNTS];
};

struct lent *fresh(void);
/* Whether nothing was written from a place on. */
int unwritten(const struct lent *l, size_t room_from, size_t counts_from);
/* The counts and the hits to `out`, where they are not refused. Checks that nothing else was written. */
uint32_t taken_over(const char *name, uint32_t refused, const struct lent *l, size_t counts, double *out);
/* What is known, in the same places. */
uint32_t laid_out(struct found f, size_t counts, double *out);

#define TRY_ANSWERS(call, drawings) try_answers(call, drawings, sizeof(drawings) / sizeof(drawings)[0])

#endif
