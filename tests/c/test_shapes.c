/* Distances to arcs; arcs and circles from points. */
#include "calls.h"
#include "check.h"
#include "tests.h"
#include <math.h>

static uint32_t ask_point_to_arc_dist(const double *in, uint32_t marks, double *out, size_t out_len)
{
    return arcs_point_to_arc_dist(in[0], in[1], in + 2, ARCS_ARC_NUMBERS, marks, out, out_len);
}

/* A flag is set where it is not 0, whatever else it is. */
static uint32_t ask_svg_arc_to_center(const double *in, uint32_t marks, double *out, size_t out_len)
{
    uint32_t large_arc = marks & 1 ? 256 : 0, sweep = marks & 2 ? UINT32_MAX : 0;
    return arcs_svg_arc_to_center(in[0], in[1], in[2], in[3], in[4], in[5], in[6], large_arc, sweep, out, out_len);
}

static uint32_t ask_circumscribed_arc(const double *in, uint32_t marks, double *out, size_t out_len)
{
    (void)marks;
    return arcs_circumscribed_arc(in[0], in[1], in[2], in[3], in[4], in[5], out, out_len);
}

static uint32_t ask_circle_tangent_through(const double *in, uint32_t marks, double *out, size_t out_len)
{
    (void)marks;
    return arcs_circle_tangent_through(in[0], in[1], in[2], in[3], in[4], in[5], out, out_len);
}

static uint32_t ask_fit_earc_tangent(const double *in, uint32_t marks, double *out, size_t out_len)
{
    (void)marks;
    return arcs_fit_earc_tangent(in[0], in[1], in[2], in[3], in[4], in[5], in[6], in[7], in[8], out, out_len);
}

/* The search's steps divide differences of points by 1e-6, so that their last digits are lost. */
static const struct call point_to_arc_dist = {"arcs_point_to_arc_dist", "CCCCCCAAA", 3, 7, 7, 1e-5, ask_point_to_arc_dist, known_point_to_arc_dist};
static const struct call svg_arc_to_center = {"arcs_svg_arc_to_center", "CCCCCCA", 6, 3, 3, 1e-9, ask_svg_arc_to_center, known_svg_arc_to_center};
static const struct call circumscribed_arc = {"arcs_circumscribed_arc", "CCCCCC", 6, 0, 0, 1e-9, ask_circumscribed_arc, known_circumscribed_arc};
static const struct call circle_tangent_through = {
    "arcs_circle_tangent_through", "CCCCCC", 3, 0, 0, 1e-9, ask_circle_tangent_through, known_circle_tangent_through};
static const struct call fit_earc_tangent = {"arcs_fit_earc_tangent", "CCCCCCCCC", 8, 0, 0, 1e-9, ask_fit_earc_tangent, known_fit_earc_tangent};

/* A point; center, radii, rotation, start, end: nearest within the span, beyond its start, beyond its end. */
static const struct drawing distances[] = {
    {ARCS_MARK_CCW, {9.0, 3.5, 3.0, -2.0, 8.0, 4.0, 0.5, -0.4, 2.6}},
    {ARCS_MARK_CCW, {9.0, 1.5, 3.0, -2.0, 8.0, 4.0, 0.5, 1.2, 2.6}},
    {ARCS_MARK_CCW, {-9.0, -1.5, 3.0, -2.0, 8.0, 4.0, 0.5, 1.2, 2.6}},
    {0, {-9.0, 3.0, -5.0, 1.0, 2.0, 6.0, -0.8, 4.7, 0.1}},
    {ARCS_MARK_CLOSED, {9.0, 3.0, -5.0, 1.0, 2.0, 6.0, -0.8, 4.7, 0.1}},
    {ARCS_MARK_ELLIPSE, {9.0, 3.5, 3.0, -2.0, 8.0, 4.0, 0.5, -1.2, 2.6}},
    {ARCS_MARK_ELLIPSE, {9.0, 1.5, 3.0, -2.0, 8.0, 4.0, 0.5, 1.2, 2.6}},
    {ARCS_MARK_ELLIPSE | ARCS_MARK_CLOSED, {-9.0, 3.0, -5.0, 1.0, 2.0, 6.0, -0.8, 0.7, 0.1}},
};
/* Both points, radii, rotation; all four pairs of flags, and radii that must grow. */
static const struct drawing conversions[] = {
    {0, {1.5, -2.0, 6.0, 3.0, 7.0, 4.0, 0.4}},
    {1, {1.5, -2.0, 6.0, 3.0, 7.0, 4.0, 0.4}},
    {2, {1.5, -2.0, 6.0, 3.0, 7.0, 4.0, 0.4}},
    {3, {1.5, -2.0, 6.0, 3.0, -7.0, 4.0, 0.4}},
    {2, {-11.0, 2.0, 8.5, -6.0, 5.0, -3.0, -0.9}},
};
static const struct drawing three_points[] = {{0, {1.5, -2.0, 6.0, 3.0, 7.5, -0.5}}, {0, {1.5, -2.0, 6.0, 3.0, -0.25, 4.5}}};
static const struct drawing tangents[] = {{0, {1.5, -2.0, 6.0, 3.0, 0.25, 2.25}}, {0, {-4.0, 8.0, 3.5, -1.0, -7.0, 0.75}}};
/* Point and direction, twice, and the bulge. */
static const struct drawing fits[] = {
    {0, {5.0, 1.0, -0.25, 2.0, -3.0, 2.5, -0.5, -1.75, 0.8}},
    {0, {5.0, 1.0, 0.5, -2.0, -3.0, 2.5, -0.25, 1.75, 1.3}},
};

static void degenerate(const struct call *c, const double *in)
{
    double out[MOST_OUT];
    fill(out, MOST_OUT);
    check(c->ask(in, 0, out, c->gives) == ARCS_REFUSED_DEGENERATE, "%s: a degenerate construction is taken", c->name);
    check(c->ask(in, 0, out, c->gives - 1) == ARCS_REFUSED_ROOM_TOO_SHORT, "%s: a short `out` comes before a degenerate construction", c->name);
    check(untouched(out, MOST_OUT), "%s: refused and wrote", c->name);
}

static void try_degenerate(void)
{
    degenerate(&svg_arc_to_center, (const double[]){1.5, -2.0, 1.5, -2.0, 7.0, 4.0, 0.4});
    degenerate(&svg_arc_to_center, (const double[]){1.5, -2.0, 6.0, 3.0, 7.0, 0.0, 0.4});
    degenerate(&circumscribed_arc, (const double[]){1.0, 2.0, 3.0, 6.0, 2.0, 4.0});
    degenerate(&circle_tangent_through, (const double[]){1.5, -2.0, 6.0, 3.0, 0.0, 0.0});
    degenerate(&circle_tangent_through, (const double[]){1.0, -2.0, 3.0, 2.0, 0.5, 1.0});
    degenerate(&fit_earc_tangent, (const double[]){5.0, 1.0, -0.25, 2.0, 5.0, 1.0, -0.5, -1.75, 0.8});
    degenerate(&fit_earc_tangent, (const double[]){5.0, 1.0, -0.25, 2.0, -3.0, 2.5, -0.5, -1.75, 0.0});
}

/* What the fit is for, said without its formulas: the arc begins at point 1 in its direction and ends at point 2 in that one's. */
static void try_fitted(const struct drawing *d)
{
    double f[8];
    check(fit_earc_tangent.ask(d->in, 0, f, 8) == ARCS_OK, "a fit is refused");
    const double a[7] = {f[0], f[1], f[2], f[3], f[4], f[5], f[6]};
    struct arc e = arc_of(a, ARCS_MARK_ELLIPSE);
    for (int end = 0; end < 2; end++) {
        const double *p = d->in + 4 * end, *t = p + 2, angle = end ? e.end : e.start;
        struct point at = point_at(e, angle), along = tangent_at(e, angle);
        check(hypot(at.x - p[0], at.y - p[1]) <= 1e-9, "end %d of a fit is at (%g, %g)", end, at.x, at.y);
        check(fabs(along.x * t[1] - along.y * t[0]) <= 1e-9 * hypot(along.x, along.y), "end %d of a fit has another direction", end);
    }
    struct point along = tangent_at(e, e.start);
    check((along.x * d->in[2] + along.y * d->in[3] > 0) == (f[7] == 1), "a fit's ccw is %g", f[7]);
}

void test_shapes(void)
{
    group("distances, and arcs and circles from points");
    TRY(&point_to_arc_dist, distances);
    TRY(&svg_arc_to_center, conversions);
    TRY(&circumscribed_arc, three_points);
    TRY(&circle_tangent_through, tangents);
    TRY(&fit_earc_tangent, fits);
    try_degenerate();
    try_fitted(&fits[0]);
    try_fitted(&fits[1]);
}
