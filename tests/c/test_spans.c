/* Spans, radii and parameters. */
#include "calls.h"
#include "check.h"
#include "tests.h"
#include <math.h>

static uint32_t ask_norm_tau(const double *in, uint32_t marks, double *out, size_t out_len)
{
    (void)marks;
    return arcs_norm_tau(in[0], out, out_len);
}

static uint32_t ask_arc_param_in_span(const double *in, uint32_t marks, double *out, size_t out_len)
{
    return arcs_arc_param_in_span(in, ARCS_ARC_NUMBERS, marks, in[7], out, out_len);
}

static uint32_t ask_arc_radii(const double *in, uint32_t marks, double *out, size_t out_len)
{
    return arcs_arc_radii(in, ARCS_ARC_NUMBERS, marks, out, out_len);
}

static uint32_t ask_arc_theta_of_pos(const double *in, uint32_t marks, double *out, size_t out_len)
{
    return arcs_arc_theta_of_pos(in, ARCS_ARC_NUMBERS, marks, in[7], in[8], out, out_len);
}

static uint32_t ask_arc_param_at_point(const double *in, uint32_t marks, double *out, size_t out_len)
{
    return arcs_arc_param_at_point(in, ARCS_ARC_NUMBERS, marks, in[7], in[8], out, out_len);
}

static uint32_t ask_nearest_arc_param(const double *in, uint32_t marks, double *out, size_t out_len)
{
    return arcs_nearest_arc_param(in, ARCS_ARC_NUMBERS, marks, in[7], in[8], out, out_len);
}

static const struct call norm_tau = {"arcs_norm_tau", "A", 1, 0, 0, 1e-9, ask_norm_tau, known_norm_tau};
static const struct call arc_param_in_span = {
    "arcs_arc_param_in_span", "ccccaAAA", 1, 7, ARCS_MARK_CCW | ARCS_MARK_CLOSED, 1e-9, ask_arc_param_in_span, known_arc_param_in_span};
static const struct call arc_radii = {"arcs_arc_radii", "ccCCaaa", 2, 7, ARCS_MARK_ELLIPSE, 1e-9, ask_arc_radii, known_arc_radii};
/* A circle's radius does not matter: both coordinates are divided by it. */
static const struct call arc_theta_of_pos = {
    "arcs_arc_theta_of_pos", "CCCCAaaCC", 1, 7, ARCS_MARK_ELLIPSE, 1e-9, ask_arc_theta_of_pos, known_arc_theta_of_pos};
static const struct call arc_param_at_point = {"arcs_arc_param_at_point", "CCCCAaaCC", 1, 7, 0, 1e-9, ask_arc_param_at_point, known_arc_param_at_point};
/* A search ends where the distances of neighbours have no digits left to differ in. */
static const struct call nearest_arc_param = {"arcs_nearest_arc_param", "CCCCAAACC", 1, 7, 7, 1e-6, ask_nearest_arc_param, known_nearest_arc_param};

static const struct drawing angles[] = {{0, {1.25}}, {0, {-2.5}}, {0, {100.0}}, {0, {-1000.0}}};

/* Center, radii, rotation, start, end, theta. */
static const struct drawing spans[] = {
    {ARCS_MARK_CCW, {2.5, -4.0, 7.0, 9.0, 0.3, 0.5, 3.0, 8.1}},
    {ARCS_MARK_CCW, {2.5, -4.0, 7.0, 9.0, 0.3, 0.5, 3.5, 4.1}},
    {0, {2.5, -4.0, 7.0, 9.0, 0.3, 3.0, -0.5, 8.1}},
    {ARCS_MARK_CLOSED, {2.5, -4.0, 7.0, 9.0, 0.3, 3.0, 0.5, 1.75}},
    {ARCS_MARK_CLOSED | ARCS_MARK_CCW, {2.5, -4.0, 7.0, 9.0, 0.3, 0.5, 3.0, -2.75}},
    {ARCS_MARK_ELLIPSE, {2.5, -4.0, 7.0, 9.0, 0.3, 6.0, 1.5, -3.25}},
};

/* Center, radii, rotation, start, end, a point. */
static const struct drawing places[] = {
    {ARCS_MARK_ELLIPSE, {3.0, -2.0, 8.0, 4.0, 0.5, 1.2, 2.6, 9.0, 3.5}},
    {ARCS_MARK_ELLIPSE, {-5.0, 1.0, 2.0, 6.0, -0.8, 0.1, 4.7, -9.0, 3.0}},
    {ARCS_MARK_CCW, {3.0, -2.0, 8.0, 4.0, 0.5, 1.2, 2.6, 9.0, 3.5}},
    {ARCS_MARK_CLOSED, {3.0, -2.0, 8.0, 4.0, 0.5, 1.2, 2.6, 9.0, 3.5}},
    {0, {-5.0, 1.0, 2.0, 6.0, -0.8, 0.1, 4.7, -9.0, 3.0}},
};

/* The same, the point being nearest within a span, beyond its start, and beyond its end. */
static const struct drawing nearest[] = {
    {ARCS_MARK_CCW, {3.0, -2.0, 8.0, 4.0, 0.5, -0.4, 2.6, 9.0, 3.5}},
    {ARCS_MARK_CCW, {3.0, -2.0, 8.0, 4.0, 0.5, 1.2, 2.6, 9.0, 1.5}},
    {ARCS_MARK_CCW, {3.0, -2.0, 8.0, 4.0, 0.5, 1.2, 2.6, -9.0, -1.5}},
    {0, {-5.0, 1.0, 2.0, 6.0, -0.8, 4.7, 0.1, -9.0, 3.0}},
    {ARCS_MARK_CLOSED, {-5.0, 1.0, 2.0, 6.0, -0.8, 4.7, 0.1, 9.0, 3.0}},
    {ARCS_MARK_ELLIPSE, {3.0, -2.0, 8.0, 4.0, 0.5, -1.2, 2.6, 9.0, 3.5}},
    {ARCS_MARK_ELLIPSE, {3.0, -2.0, 8.0, 4.0, 0.5, 1.2, 2.6, 9.0, 1.5}},
    {ARCS_MARK_ELLIPSE | ARCS_MARK_CLOSED, {-5.0, 1.0, 2.0, 6.0, -0.8, 0.7, 0.1, -9.0, 3.0}},
};

/* Whether a partial arc from 0.5 to 3, or back, reaches the angle: up to 1e-9 past its end, and not before its start. */
static void try_reach(uint32_t marks, double start, double end, double theta, uint32_t refusal)
{
    double out[1] = {UNTOUCHED};
    const double a[7] = {2.5, -4.0, 7.0, 9.0, 0.3, start, end};
    uint32_t refused = arcs_arc_param_in_span(a, 7, marks, theta, out, 1);
    check(refused == refusal, "angle %.17g from %g to %g: refused with %u, not %u", theta, start, end, refused, refusal);
    check(untouched(out, 1) == (refusal != 0), "angle %.17g from %g to %g: refused with %u, `out` is %g", theta, start, end, refused, out[0]);
}

static void try_reaches(void)
{
    try_reach(ARCS_MARK_CCW, 0.5, 3.0, 3.0 + 0.9e-9, ARCS_OK);
    try_reach(ARCS_MARK_CCW, 0.5, 3.0, 3.0 + 1.1e-9, ARCS_REFUSED_OUTSIDE_SPAN);
    try_reach(ARCS_MARK_CCW, 0.5, 3.0, 0.5 - 0.9e-9, ARCS_REFUSED_OUTSIDE_SPAN);
    try_reach(0, 3.0, 0.5, 0.5 - 0.9e-9, ARCS_OK);
    try_reach(0, 3.0, 0.5, 0.5 - 1.1e-9, ARCS_REFUSED_OUTSIDE_SPAN);
    try_reach(0, 0.5, 3.0, 1.5, ARCS_REFUSED_OUTSIDE_SPAN);
    try_reach(ARCS_MARK_CLOSED, 0.5, 3.0, 4.0, ARCS_OK);
}

/* An angle outside comes after a slice that is too short. */
static void try_order(void)
{
    double out[1] = {UNTOUCHED};
    const double a[7] = {2.5, -4.0, 7.0, 9.0, 0.3, 0.5, 3.0};
    check(arcs_arc_param_in_span(a, 7, ARCS_MARK_CCW, 4.0, out, 0) == ARCS_REFUSED_ROOM_TOO_SHORT, "an angle outside, in a slice of 0");
    check(untouched(out, 1), "an angle outside, in a slice of 0, is written");
}

static void try_no_angle(void)
{
    const double a[7] = {2.5, -4.0, 0.0, 0.0, 0.0, 0.5, 3.0};
    double out[1] = {UNTOUCHED};
    check(arcs_arc_theta_of_pos(a, 7, 0, 2.5, -4.0, out, 1) == ARCS_OK && isnan(out[0]), "the angle of a point in a point is %g", out[0]);
}

void test_spans(void)
{
    group("spans and parameters");
    TRY(&norm_tau, angles);
    TRY(&arc_param_in_span, spans);
    TRY(&arc_radii, places);
    TRY(&arc_theta_of_pos, places);
    TRY(&arc_param_at_point, places);
    TRY(&nearest_arc_param, nearest);
    try_reaches();
    try_order();
    try_no_angle();
}
