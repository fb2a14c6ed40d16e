/* Distances to segments, projections, and where lines meet. */
#include "calls.h"
#include "check.h"
#include "tests.h"

static uint32_t ask_point_to_segment_dist(const double *in, uint32_t marks, double *out, size_t out_len)
{
    (void)marks;
    return arcs_point_to_segment_dist(in[0], in[1], in[2], in[3], in[4], in[5], out, out_len);
}

static uint32_t ask_project_onto_segment(const double *in, uint32_t marks, double *out, size_t out_len)
{
    (void)marks;
    return arcs_project_onto_segment(in[0], in[1], in[2], in[3], in[4], in[5], out, out_len);
}

static uint32_t ask_line_line_intersection(const double *in, uint32_t marks, double *out, size_t out_len)
{
    (void)marks;
    return arcs_line_line_intersection(in[0], in[1], in[2], in[3], in[4], in[5], in[6], in[7], out, out_len);
}

static const struct call point_to_segment_dist = {
    "arcs_point_to_segment_dist", "CCCCCC", 1, 0, 0, 1e-9, ask_point_to_segment_dist, known_point_to_segment_dist};
static const struct call project_onto_segment = {
    "arcs_project_onto_segment", "CCCCCC", 2, 0, 0, 1e-9, ask_project_onto_segment, known_project_onto_segment};
static const struct call line_line_intersection = {
    "arcs_line_line_intersection", "CCCCCCCC", 2, 0, 0, 1e-9, ask_line_line_intersection, known_line_line_intersection};

/* A point, and both ends: it is nearest to the middle, to the first end, to the second. */
static const struct drawing points[] = {
    {0, {2.0, 7.5, -4.0, 1.0, 11.0, 3.0}},
    {0, {-9.0, -2.5, -4.0, 1.0, 11.0, 3.0}},
    {0, {25.0, 7.0, -4.0, 1.0, 11.0, 3.0}},
};
/* Lines that meet, and lines that are parallel. */
static const struct drawing lines[] = {
    {0, {-4.0, 1.0, 11.0, 3.0, 2.0, 9.5, 5.0, -6.0}},
    {0, {-4.0, 1.0, 11.0, 3.5, 2.0, 9.5, 32.0, 14.5}},
};

/* A segment shorter than 1e-6 has no direction: its first point is taken. */
static void try_speck(void)
{
    double out[2];
    check(arcs_project_onto_segment(2.0, 7.5, 1.0, 3.0, 1.0 + 9e-7, 3.0, out, 2) == ARCS_OK && out[0] == 1.0 && out[1] == 3.0,
          "onto a speck: (%.17g, %.17g)", out[0], out[1]);
    check(arcs_point_to_segment_dist(4.0, 7.0, 1.0, 3.0, 1.0 + 9e-7, 3.0, out, 1) == ARCS_OK && out[0] == 5.0, "to a speck: %.17g", out[0]);
}

void test_lines(void)
{
    group("segments and lines");
    TRY(&point_to_segment_dist, points);
    TRY(&project_onto_segment, points);
    TRY(&line_line_intersection, lines);
    try_speck();
}
