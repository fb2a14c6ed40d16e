/* Points, tangents and ends of arcs. */
#include "calls.h"
#include "check.h"
#include "tests.h"

static uint32_t ask_ellipse_point(const double *in, uint32_t marks, double *out, size_t out_len)
{
    (void)marks;
    return arcs_ellipse_point(in[0], in[1], in[2], in[3], in[4], in[5], out, out_len);
}

static uint32_t ask_ellipse_tangent(const double *in, uint32_t marks, double *out, size_t out_len)
{
    (void)marks;
    return arcs_ellipse_tangent(in[0], in[1], in[2], in[3], out, out_len);
}

static uint32_t ask_arc_point_at(const double *in, uint32_t marks, double *out, size_t out_len)
{
    return arcs_arc_point_at(in, ARCS_ARC_NUMBERS, marks, in[7], out, out_len);
}

static uint32_t ask_arc_tangent_at(const double *in, uint32_t marks, double *out, size_t out_len)
{
    return arcs_arc_tangent_at(in, ARCS_ARC_NUMBERS, marks, in[7], out, out_len);
}

static uint32_t ask_arc_start_pos(const double *in, uint32_t marks, double *out, size_t out_len)
{
    return arcs_arc_start_pos(in, ARCS_ARC_NUMBERS, marks, out, out_len);
}

static uint32_t ask_arc_end_pos(const double *in, uint32_t marks, double *out, size_t out_len)
{
    return arcs_arc_end_pos(in, ARCS_ARC_NUMBERS, marks, out, out_len);
}

static const struct call ellipse_point = {"arcs_ellipse_point", "CCCCAA", 2, 0, 0, 1e-9, ask_ellipse_point, known_ellipse_point};
static const struct call ellipse_tangent = {"arcs_ellipse_tangent", "CCAA", 2, 0, 0, 1e-9, ask_ellipse_tangent, known_ellipse_tangent};
static const struct call arc_point_at = {"arcs_arc_point_at", "CCCCAaaA", 2, 7, 0, 1e-9, ask_arc_point_at, known_arc_point_at};
static const struct call arc_tangent_at = {"arcs_arc_tangent_at", "ccCCAaaA", 2, 7, 0, 1e-9, ask_arc_tangent_at, known_arc_tangent_at};
static const struct call arc_start_pos = {"arcs_arc_start_pos", "CCCCAAa", 2, 7, 0, 1e-9, ask_arc_start_pos, known_arc_start_pos};
static const struct call arc_end_pos = {"arcs_arc_end_pos", "CCCCAaA", 2, 7, 0, 1e-9, ask_arc_end_pos, known_arc_end_pos};

/* Center, radii, rotation, start, end, and an angle behind them. */
static const struct drawing arcs[] = {
    {0, {3.25, -7.5, 12.0, 5.0, 0.4, 1.1, 2.3, -0.7}},
    {ARCS_MARK_CCW, {-41.0, 8.5, 2.25, 17.0, -1.3, 0.2, 4.4, 2.9}},
    {ARCS_MARK_CLOSED, {0.5, 60.0, 9.0, 31.0, 2.2, -3.1, 1.7, 5.6}},
    {ARCS_MARK_ELLIPSE, {-15.0, -22.0, 40.0, 6.5, 0.9, -0.6, 3.3, 7.7}},
};
static const struct drawing ellipses[] = {{0, {3.25, -7.5, 12.0, 5.0, 0.4, 1.1}}, {0, {-41.0, 8.5, 2.25, 17.0, -1.3, 2.9}}};
static const struct drawing tangents[] = {{0, {12.0, 5.0, 0.4, 1.1}}, {0, {2.25, 17.0, -1.3, 2.9}}};

void test_points(void)
{
    group("points and tangents");
    TRY(&ellipse_point, ellipses);
    TRY(&ellipse_tangent, tangents);
    TRY(&arc_point_at, arcs);
    TRY(&arc_tangent_at, arcs);
    TRY(&arc_start_pos, arcs);
    TRY(&arc_end_pos, arcs);
}
