/* Lengths: of arcs, of rooms, of counts; depths; and a single hit. */
#include "check.h"
#include "crossings.h"
#include "tests.h"
#include <float.h>
#include <math.h>
#include <string.h>

/* A call with a room, on a drawing that it has hits in. The first number is its own to change. */
struct roomy {
    const char *name;
    size_t room, counts;
    uint32_t (*ask)(double first, uint32_t depth, double *room, size_t room_len, uint64_t *counts, size_t counts_len);
};

static uint32_t segments(double x, uint32_t depth, double *room, size_t room_len, uint64_t *counts, size_t counts_len)
{
    (void)depth;
    return arcs_intersect_segments(x, 1.0, 11.0, 3.0, 2.0, 9.5, 5.0, -6.0, room, room_len, counts, counts_len);
}

static uint32_t segment_arc(double x, uint32_t depth, double *room, size_t room_len, uint64_t *counts, size_t counts_len)
{
    const double a[7] = {0.5, 0.25, 7.0, 3.0, 0.4, -0.6, 2.1};
    (void)depth;
    return arcs_intersect_segment_arc(x, -3.5, 12.0, 4.5, a, 7, ELLIPSE | CLOSED, room, room_len, counts, counts_len);
}

static uint32_t arcs_of(uint32_t a_marks, double x, uint32_t depth, double *room, size_t room_len, uint64_t *counts, size_t counts_len)
{
    const double a[7] = {x, -0.25, 6.0, 2.5, 0.3, 0.9, 15.5}, b[7] = {-0.4, 0.35, 3.1, 5.2, -0.2, -1.1, 3.9};
    return arcs_intersect_arcs(a, 7, a_marks, b, 7, CLOSED, depth, room, room_len, counts, counts_len);
}

static uint32_t circles(double x, uint32_t depth, double *room, size_t room_len, uint64_t *counts, size_t counts_len)
{
    return arcs_of(CLOSED, x + 5, depth, room, room_len, counts, counts_len);
}

static uint32_t hunted(double x, uint32_t depth, double *room, size_t room_len, uint64_t *counts, size_t counts_len)
{
    return arcs_of(CLOSED | ELLIPSE, x, depth, room, room_len, counts, counts_len);
}

static uint32_t curves(uint32_t a_marks, uint32_t b_marks, double x, uint32_t depth, double *room, size_t room_len, uint64_t *counts,
                       size_t counts_len)
{
    const double bowl[7] = {x, 0.25, 7.0, 3.0, 0.4, -0.6, 2.1}, hole[7] = {4.5, 2.5, 3.5, 8.0, -0.3, 0.4, 5.75};
    const double cut[4] = {x, -3.5, 12.0, 4.5}, other[4] = {2.0, 9.5, 5.0, -6.0};
    const double *a = a_marks & SEGMENT ? cut : bowl, *b = b_marks & SEGMENT ? other : hole;
    return arcs_intersect(a, a_marks & SEGMENT ? 4 : 7, a_marks, b, b_marks & SEGMENT ? 4 : 7, b_marks, depth, room, room_len, counts, counts_len);
}

static uint32_t two_cuts(double x, uint32_t depth, double *room, size_t room_len, uint64_t *counts, size_t counts_len)
{
    return curves(SEGMENT, SEGMENT, x, depth, room, room_len, counts, counts_len);
}

static uint32_t cut_and_hole(double x, uint32_t depth, double *room, size_t room_len, uint64_t *counts, size_t counts_len)
{
    return curves(SEGMENT, CLOSED, x, depth, room, room_len, counts, counts_len);
}

static uint32_t bowl_and_cut(double x, uint32_t depth, double *room, size_t room_len, uint64_t *counts, size_t counts_len)
{
    return curves(ELLIPSE | CLOSED, SEGMENT, x, depth, room, room_len, counts, counts_len);
}

static uint32_t bowl_and_hole(double x, uint32_t depth, double *room, size_t room_len, uint64_t *counts, size_t counts_len)
{
    return curves(ELLIPSE | CLOSED, CLOSED, x, depth, room, room_len, counts, counts_len);
}

static const struct roomy roomies[] = {
    {"arcs_intersect_segments", 4, 1, segments},
    {"arcs_intersect_segment_arc", 8, 1, segment_arc},
    {"arcs_intersect_arcs of circles", 8, 6, circles},
    {"arcs_intersect_arcs of an ellipse", 1024, 6, hunted},
    {"arcs_intersect of segments", 4, 6, two_cuts},
    {"arcs_intersect of a segment and an arc", 8, 6, cut_and_hole},
    {"arcs_intersect of an ellipse and a segment", 8, 6, bowl_and_cut},
    {"arcs_intersect of an ellipse and a circle", 1024, 6, bowl_and_hole},
};

/* Asks with so much lent; the refusal must be the one that is named, and must have written nothing. */
static void lend(const struct roomy *r, double first, uint32_t depth, size_t room_len, size_t counts_len, uint32_t refusal)
{
    struct lent *l = fresh();
    uint32_t refused = r->ask(first, depth, l->room, room_len, l->counts, counts_len);
    check(refused == refusal, "%s with %zu and %zu lent, depth %u: refused with %u, not %u", r->name, room_len, counts_len, depth, refused, refusal);
    if (refusal != ARCS_OK)
        check(unwritten(l, 0, 0), "%s: refused with %u and wrote", r->name, refused);
    else
        check(l->counts[0] > 0 && unwritten(l, l->counts[0] * 4, r->counts), "%s: no hit, or more than its hits and counts written", r->name);
}

static void try_rooms(const struct roomy *r)
{
    lend(r, -0.5, 0, r->room, r->counts, ARCS_OK);
    lend(r, -0.5, 0, r->room - 1, r->counts, ARCS_REFUSED_ROOM_TOO_SHORT);
    lend(r, -0.5, 0, 0, r->counts, ARCS_REFUSED_ROOM_TOO_SHORT);
    lend(r, -0.5, 0, 0, 0, ARCS_REFUSED_ROOM_TOO_SHORT);
    for (size_t len = 0; len < r->counts; len++)
        lend(r, -0.5, 0, r->room, len, ARCS_REFUSED_ROOM_TOO_SHORT);
    lend(r, NAN, 4, 0, r->counts, ARCS_REFUSED_NOT_A_NUMBER);
    lend(r, NAN, 4, r->room, 0, ARCS_REFUSED_NOT_A_NUMBER);
    lend(r, DBL_MAX, 4, 0, r->counts, ARCS_REFUSED_BEYOND_LIMIT);
    lend(r, DBL_MAX, 4, r->room, 0, ARCS_REFUSED_BEYOND_LIMIT);
}

/* 3 comes before 4, and every pair of arcs_intersect has it. A hunt's room doubles with the depth. */
static void try_depths(const struct roomy *r)
{
    size_t need = r->room;
    lend(r, -0.5, 4, 0, 0, ARCS_REFUSED_TOO_DEEP);
    lend(r, -0.5, 4, ROOM, r->counts, ARCS_REFUSED_TOO_DEEP);
    lend(r, -0.5, UINT32_MAX, ROOM, r->counts, ARCS_REFUSED_TOO_DEEP);
    for (uint32_t depth = 0; depth <= 3; depth++) {
        lend(r, -0.5, depth, need, r->counts, ARCS_OK);
        lend(r, -0.5, depth, need - 1, r->counts, ARCS_REFUSED_ROOM_TOO_SHORT);
        need *= r->room == 1024 ? 2 : 1;
    }
}

/* A slice with fewer numbers than an arc has, in a call each; the eighth number is not an arc's. */
static void try_short_arcs(void)
{
    const double a[8] = {3.0, -2.0, 8.0, 4.0, 0.5, -0.4, 2.6, NAN};
    double out[3];
    for (size_t len = 0; len <= 8; len++) {
        uint32_t refusal = len < 7 ? ARCS_REFUSED_NOT_A_NUMBER : ARCS_OK;
        struct lent *l = fresh();
        fill(out, 3);
        check(arcs_arc_point_at(a, len, 1, 0.1, out, 2) == refusal, "arcs_arc_point_at of %zu numbers", len);
        check(untouched(out, 2) == (len < 7), "arcs_arc_point_at of %zu numbers: `out` is %g", len, out[0]);
        check(arcs_arc_tangent_at(a, len, 1, 0.1, out, 2) == refusal, "arcs_arc_tangent_at of %zu numbers", len);
        check(arcs_arc_start_pos(a, len, 1, out, 2) == refusal, "arcs_arc_start_pos of %zu numbers", len);
        check(arcs_arc_end_pos(a, len, 1, out, 2) == refusal, "arcs_arc_end_pos of %zu numbers", len);
        check(arcs_arc_param_in_span(a, len, 1, 0.1, out, 1) == refusal, "arcs_arc_param_in_span of %zu numbers", len);
        check(arcs_arc_radii(a, len, 1, out, 2) == refusal, "arcs_arc_radii of %zu numbers", len);
        check(arcs_arc_theta_of_pos(a, len, 1, 9.0, 3.5, out, 1) == refusal, "arcs_arc_theta_of_pos of %zu numbers", len);
        check(arcs_arc_param_at_point(a, len, 1, 9.0, 3.5, out, 1) == refusal, "arcs_arc_param_at_point of %zu numbers", len);
        check(arcs_nearest_arc_param(a, len, 1, 9.0, 3.5, out, 1) == refusal, "arcs_nearest_arc_param of %zu numbers", len);
        check(arcs_point_to_arc_dist(9.0, 3.5, a, len, 1, out, 3) == refusal, "arcs_point_to_arc_dist of %zu numbers", len);
        check(arcs_intersect_segment_arc(0, 0, 9, 9, a, len, 1, l->room, 8, l->counts, 1) == refusal, "arcs_intersect_segment_arc of %zu numbers", len);
        check(arcs_intersect_arcs(a, len, 1, a, 7, 1, 0, l->room, 8, l->counts, 6) == refusal, "arcs_intersect_arcs, a of %zu numbers", len);
        check(arcs_intersect_arcs(a, 7, 1, a, len, 1, 0, l->room, 8, l->counts, 6) == refusal, "arcs_intersect_arcs, b of %zu numbers", len);
    }
}

/* A segment has four numbers. */
static void try_short_curves(void)
{
    const double cut[5] = {-9.0, -3.5, 12.0, 4.5, NAN}, hole[8] = {4.5, 2.5, 3.5, 8.0, -0.3, 0.4, 5.75, NAN};
    for (size_t len = 0; len <= 8; len++) {
        struct lent *l = fresh();
        if (len <= 5) {
            uint32_t refusal = len < 4 ? ARCS_REFUSED_NOT_A_NUMBER : ARCS_OK;
            check(arcs_intersect(cut, len, SEGMENT, hole, 7, CLOSED, 0, l->room, 8, l->counts, 6) == refusal, "arcs_intersect, a of %zu numbers", len);
            check(arcs_intersect(hole, 7, CLOSED, cut, len, SEGMENT, 0, l->room, 8, l->counts, 6) == refusal, "arcs_intersect, b of %zu numbers", len);
        }
        uint32_t refusal = len < 7 ? ARCS_REFUSED_NOT_A_NUMBER : ARCS_OK;
        check(arcs_intersect(hole, len, CLOSED, cut, 4, SEGMENT, 0, l->room, 8, l->counts, 6) == refusal, "arcs_intersect, a of %zu numbers", len);
        check(arcs_intersect(cut, 4, SEGMENT, hole, len, CLOSED, 0, l->room, 8, l->counts, 6) == refusal, "arcs_intersect, b of %zu numbers", len);
    }
}

static const double hits[13] = {0.1, 0.2, 0.3, 0.4, 1.1, 1.2, 1.3, 1.4, 2.1, 2.2, 2.3, 2.4, 3.1};

/* The hit i of `count`, where so many numbers stand in the room; `there` says whether there is one. */
static void try_hit(size_t room_len, size_t count, size_t i, int there)
{
    double out[5];
    uint64_t counts[2] = {77, 78};
    fill(out, 5);
    check(arcs_hit(hits, room_len, count, i, out, 5, counts, 2) == ARCS_OK, "hit %zu of %zu in a room of %zu is refused", i, count, room_len);
    check(counts[0] == (there ? 4u : 0u) && counts[1] == 78, "hit %zu of %zu in a room of %zu: %d written", i, count, room_len, (int)counts[0]);
    if (there)
        check(memcmp(out, hits + 4 * i, 4 * sizeof out[0]) == 0, "hit %zu of %zu is another", i, count);
    check(untouched(out + (there ? 4 : 0), there ? 1 : 5), "hit %zu of %zu in a room of %zu is written elsewhere", i, count, room_len);
}

static void try_hit_lengths(void)
{
    for (size_t len = 0; len <= 4; len++) {
        double out[4];
        uint64_t counts[1] = {77};
        fill(out, 4);
        check(arcs_hit(hits, 12, 3, 1, out, len, counts, len == 4 ? 0 : 1) == ARCS_REFUSED_ROOM_TOO_SHORT, "a hit in a slice of %zu", len);
        check(untouched(out, 4) && counts[0] == 77, "a hit in a slice of %zu is written", len);
    }
    double just[4];
    uint64_t count[1];
    check(arcs_hit(hits, 12, 3, 1, just, 4, count, 1) == ARCS_OK && count[0] == 4 && just[3] == hits[7], "a hit in a slice of 4");
}

static void try_hits(void)
{
    for (size_t i = 0; i < 3; i++)
        try_hit(12, 3, i, 1);
    try_hit(13, 3, 1, 1);
    try_hit(12, 2, 2, 0);
    try_hit(12, 3, 3, 0);
    try_hit(13, 4, 3, 0);
    try_hit(11, 3, 2, 0);
    try_hit(0, 1, 0, 0);
    try_hit(12, 0, 0, 0);
    try_hit(12, SIZE_MAX, SIZE_MAX - 1, 0);
    try_hit_lengths();
}

void test_rooms(void)
{
    group("lengths, depths and single hits");
    for (size_t i = 0; i < sizeof roomies / sizeof roomies[0]; i++)
        try_rooms(&roomies[i]);
    for (size_t i = 2; i < sizeof roomies / sizeof roomies[0]; i++)
        try_depths(&roomies[i]);
    try_short_arcs();
    try_short_curves();
    try_hits();
}
