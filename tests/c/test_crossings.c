/* Crossings of segments, of a segment and an arc, of two arcs. */
#include "check.h"
#include "crossings.h"
#include "tests.h"
#include <math.h>

static uint32_t ask_intersect_segments(const double *in, uint32_t marks, double *out, size_t out_len)
{
    (void)marks, (void)out_len;
    struct lent *l = fresh();
    uint32_t refused = arcs_intersect_segments(in[0], in[1], in[2], in[3], in[4], in[5], in[6], in[7], l->room, ROOM, l->counts, COUNTS);
    return taken_over("arcs_intersect_segments", refused, l, 1, out);
}

static uint32_t known_intersect_segments(const double *in, uint32_t marks, double *out)
{
    (void)marks;
    return laid_out(cross_segments(in, in + 4), 1, out);
}

static uint32_t ask_intersect_segment_arc(const double *in, uint32_t marks, double *out, size_t out_len)
{
    (void)out_len;
    struct lent *l = fresh();
    uint32_t refused = arcs_intersect_segment_arc(in[0], in[1], in[2], in[3], in + 4, ARCS_ARC_NUMBERS, marks, l->room, ROOM, l->counts, COUNTS);
    return taken_over("arcs_intersect_segment_arc", refused, l, 1, out);
}

static uint32_t known_intersect_segment_arc(const double *in, uint32_t marks, double *out)
{
    return laid_out(cross_segment_arc(in, arc_of(in + 4, marks)), 1, out);
}

static uint32_t ask_intersect_arcs(const double *in, uint32_t marks, double *out, size_t out_len)
{
    (void)out_len;
    struct lent *l = fresh();
    uint32_t refused = arcs_intersect_arcs(in, ARCS_ARC_NUMBERS, A_MARKS(marks), in + 7, ARCS_ARC_NUMBERS, B_MARKS(marks), DEPTH(marks),
                                           l->room, ROOM, l->counts, COUNTS);
    return taken_over("arcs_intersect_arcs", refused, l, 6, out);
}

static uint32_t known_intersect_arcs(const double *in, uint32_t marks, double *out)
{
    return laid_out(cross_arcs(arc_of(in, A_MARKS(marks)), arc_of(in + 7, B_MARKS(marks)), DEPTH(marks)), 6, out);
}

static const struct call intersect_segments = {
    "arcs_intersect_segments", "CCCCCCCC", 5, 0, 0, 1e-9, ask_intersect_segments, known_intersect_segments};
static const struct call intersect_segment_arc = {
    "arcs_intersect_segment_arc", "CCCCCCCCAAA", 9, 7, 7, 1e-9, ask_intersect_segment_arc, known_intersect_segment_arc};
static const struct call intersect_arcs = {
    "arcs_intersect_arcs", "CCCCAAACCCCAAA", 22, 0x77, 0x77, 1e-9, ask_intersect_arcs, known_intersect_arcs};

static const struct drawing segments[] = {
    {0, {-4.0, 1.0, 11.0, 3.0, 2.0, 9.5, 5.0, -6.0}},
    {0, {-4.0, 1.0, 2.5, 3.0, 4.75, 9.5, 5.0, -6.0}},
};
static const struct drawing segment_and_arc[] = {
    {ELLIPSE | CLOSED, {CUT, BOWL}}, {ELLIPSE, {CUT, BOWL_BACK}}, {ELLIPSE | CCW, {CUT, BOWL}},
    {CLOSED, {CUT, BOWL}},           {CCW, {CUT, BOWL}},          {0, {CUT, BOWL_BACK}},
};
/* The first has six counts that are all different. */
static const struct drawing two_arcs[] = {
    {PAIR(ELLIPSE | CCW, ELLIPSE | CCW, 1u), {TURNS, PART}},
    {PAIR(ELLIPSE | CLOSED, ELLIPSE | CLOSED, 0u), {TURNS, PART}},
    {PAIR(ELLIPSE, ELLIPSE | CCW, 0u), {TURNS, PART}},
    {PAIR(ELLIPSE, ELLIPSE, 2u), {TURNS_BACK, PART_BACK}},
    {PAIR(ELLIPSE, CLOSED, 3u), {TURNS_BACK, PART}},
    {PAIR(ELLIPSE, CCW, 0u), {TURNS_BACK, PART}},
    {PAIR(CCW, ELLIPSE, 0u), {TURNS, PART_BACK}},
    {PAIR(CLOSED, ELLIPSE, 1u), {TURNS, PART_BACK}},
    {PAIR(CLOSED, CLOSED, 0u), {ROUND, OTHER}},
    {PAIR(CLOSED | CCW, CCW, 3u), {ROUND, OTHER}},
    {PAIR(CCW, CLOSED, 0u), {ROUND, OTHER}},
    {PAIR(0u, CLOSED, 0u), {ROUND, OTHER}},
};

/* Every bracket of a has one direction, so that all are outside a or none is, but for arcs shorter than 1e-9. The first drawing has
 * none outside a; in the third the arc is marked to run against its angles, and all are. */
static void try_counts(void)
{
    double out[MOST_OUT];
    check(ask_intersect_arcs(two_arcs[0].in, two_arcs[0].marks, out, 0) == ARCS_OK, "the hunt with six counts is refused");
    for (int i = 0; i < 6; i++)
        for (int j = i + 1; j < 6; j++)
            check(out[i] != out[j], "counts %d and %d are both %g", i, j, out[i]);
    check(out[0] + out[2] + out[3] + out[4] == out[1], "the fates do not add up to %g brackets", out[1]);
    check(ask_intersect_arcs(two_arcs[2].in, two_arcs[2].marks, out, 0) == ARCS_OK, "the hunt against its angles is refused");
    check(out[1] > 0 && out[2] == out[1] && out[0] == 0, "%g of %g brackets are outside an arc that runs the other way", out[2], out[1]);
}

/* P11: depth 0 has no bracket, the depths after it one, and a hit at the end of the edge. */
static void try_edge(void)
{
    double edge[] = {EDGE, RIM}, out[MOST_OUT], known[MOST_OUT];
    for (unsigned depth = 0; depth < 4; depth++) {
        unsigned found = depth > 0, cells = 256u << depth, marks = PAIR(ELLIPSE | CCW, CLOSED | CCW, depth);
        check(ask_intersect_arcs(edge, marks, out, 0) == ARCS_OK, "P11 is refused at depth %u", depth);
        known_intersect_arcs(edge, marks, known);
        for (unsigned i = 0; i < 6 + 4 * found; i++)
            check(fabs(out[i] - known[i]) < 1e-9, "number %u of P11 at depth %u is %g, not %g", i, depth, out[i], known[i]);
        check(out[0] == found && out[1] == found && out[5] == cells + 1 + 61 * found, "P11 at depth %u has %g hits, %g brackets, %g evaluations",
              depth, out[0], out[1], out[5]);
        check(!found || (fabs(out[6]) < 1e-15 && out[8] == 2 && fabs(out[9]) < 1e-15), "the hit of P11 at depth %u is %g at (%g, %g)", depth, out[6],
              out[8], out[9]);
    }
}

void test_crossings(void)
{
    group("crossings");
    TRY_ANSWERS(&intersect_segments, segments);
    TRY_ANSWERS(&intersect_segment_arc, segment_and_arc);
    TRY_ANSWERS(&intersect_arcs, two_arcs);
    try_counts();
    try_edge();
}
