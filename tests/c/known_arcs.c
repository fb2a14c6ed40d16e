/* Points, spans and parameters of arcs; the nearest point, by brute force. */
#include "known.h"
#include <math.h>

struct arc arc_of(const double *n, uint32_t marks)
{
    struct arc a = {{n[0], n[1]}, n[2], n[3], n[4], n[5], n[6], (marks & 1) != 0, (marks & 2) != 0, (marks & 4) != 0};
    return a;
}

struct point point_at(struct arc a, double t)
{
    double x = a.radius * cos(t), y = a.radius_b * sin(t);
    struct point p = {a.center.x + x * cos(a.rotation) - y * sin(a.rotation), a.center.y + x * sin(a.rotation) + y * cos(a.rotation)};
    return p;
}

struct point tangent_at(struct arc a, double t)
{
    double x = -a.radius * sin(t), y = a.radius_b * cos(t);
    struct point d = {x * cos(a.rotation) - y * sin(a.rotation), x * sin(a.rotation) + y * cos(a.rotation)};
    return d;
}

struct point radii_of(struct arc a)
{
    struct point r = {a.radius, a.ellipse ? a.radius_b : a.radius};
    return r;
}

double turned(double angle)
{
    double r = fmod(angle, TAU);
    return r < 0 ? r + TAU : r;
}

int in_span(struct arc a, double theta, double *t)
{
    double up = a.closed || a.ccw ? 1 : -1;
    double off = turned(up * (theta - a.start));
    *t = a.start + up * off;
    return a.closed || off <= up * (a.end - a.start) + 1e-9;
}

/* The angle of p in the arc's frame, x and y there being divided by the radii. */
static double angle_of(struct arc a, struct point p, double rx, double ry)
{
    double dx = p.x - a.center.x, dy = p.y - a.center.y, c = cos(a.rotation), s = sin(a.rotation);
    return atan2((c * dy - s * dx) / ry, (c * dx + s * dy) / rx);
}

double theta_of(struct arc a, struct point p)
{
    struct point r = radii_of(a);
    return angle_of(a, p, r.x, r.y);
}

static uint32_t give_point(struct point p, double *out)
{
    out[0] = p.x;
    out[1] = p.y;
    return 0;
}

uint32_t known_ellipse_point(const double *in, uint32_t marks, double *out)
{
    (void)marks;
    struct arc a = {{in[0], in[1]}, in[2], in[3], in[4], 0, 0, 0, 0, 0};
    return give_point(point_at(a, in[5]), out);
}

uint32_t known_ellipse_tangent(const double *in, uint32_t marks, double *out)
{
    (void)marks;
    struct arc a = {{0, 0}, in[0], in[1], in[2], 0, 0, 0, 0, 0};
    return give_point(tangent_at(a, in[3]), out);
}

uint32_t known_arc_point_at(const double *in, uint32_t marks, double *out)
{
    return give_point(point_at(arc_of(in, marks), in[7]), out);
}

uint32_t known_arc_tangent_at(const double *in, uint32_t marks, double *out)
{
    return give_point(tangent_at(arc_of(in, marks), in[7]), out);
}

uint32_t known_arc_start_pos(const double *in, uint32_t marks, double *out)
{
    struct arc a = arc_of(in, marks);
    return give_point(point_at(a, a.start), out);
}

uint32_t known_arc_end_pos(const double *in, uint32_t marks, double *out)
{
    struct arc a = arc_of(in, marks);
    return give_point(point_at(a, a.end), out);
}

uint32_t known_norm_tau(const double *in, uint32_t marks, double *out)
{
    (void)marks;
    out[0] = turned(in[0]);
    return 0;
}

uint32_t known_arc_param_in_span(const double *in, uint32_t marks, double *out)
{
    return in_span(arc_of(in, marks), in[7], out) ? 0 : 6;
}

uint32_t known_arc_radii(const double *in, uint32_t marks, double *out)
{
    return give_point(radii_of(arc_of(in, marks)), out);
}

uint32_t known_arc_theta_of_pos(const double *in, uint32_t marks, double *out)
{
    struct point p = {in[7], in[8]};
    out[0] = theta_of(arc_of(in, marks), p);
    return 0;
}

uint32_t known_arc_param_at_point(const double *in, uint32_t marks, double *out)
{
    struct arc a = arc_of(in, marks);
    struct point p = {in[7], in[8]};
    out[0] = angle_of(a, p, fmax(a.radius, 1e-12), fmax(a.radius_b, 1e-12));
    return 0;
}

static double distance(struct point p, struct point q)
{
    return hypot(p.x - q.x, p.y - q.y);
}

/* The parameter of the nearest point of an ellipse: of 20,000 samples the nearest, then the least distance between its
 * neighbours by thirds. */
static double nearest_of_ellipse(struct arc a, struct point p)
{
    enum { SAMPLES = 20000 };
    double from = a.start, span = a.closed ? TAU : a.end - a.start, best = from;
    for (int i = 0; i <= SAMPLES; i++) {
        double t = from + span * i / SAMPLES;
        if (distance(p, point_at(a, t)) < distance(p, point_at(a, best)))
            best = t;
    }
    double low = fmax(best - fabs(span) / SAMPLES, fmin(from, from + span));
    double high = fmin(best + fabs(span) / SAMPLES, fmax(from, from + span));
    for (int i = 0; i < 60; i++) {
        double third = (high - low) / 3;
        if (distance(p, point_at(a, low + third)) < distance(p, point_at(a, high - third)))
            high -= third;
        else
            low += third;
    }
    return (low + high) / 2;
}

uint32_t known_nearest_arc_param(const double *in, uint32_t marks, double *out)
{
    struct arc a = arc_of(in, marks);
    struct point p = {in[7], in[8]};
    if (a.ellipse) {
        out[0] = nearest_of_ellipse(a, p);
        return 0;
    }
    if (!in_span(a, atan2(p.y - a.center.y, p.x - a.center.x), out))
        out[0] = distance(p, point_at(a, a.start)) <= distance(p, point_at(a, a.end)) ? a.start : a.end;
    return 0;
}

static uint32_t give_distance(struct point p, struct point q, double *out)
{
    out[0] = distance(p, q);
    return give_point(q, out + 1);
}

/* Here the span is normalised and has no slack. */
static int reaches(struct arc a, double theta)
{
    double up = a.ccw ? 1 : -1;
    return a.closed || turned(up * (theta - a.start)) <= turned(up * (a.end - a.start));
}

uint32_t known_point_to_arc_dist(const double *in, uint32_t marks, double *out)
{
    struct point p = {in[0], in[1]};
    struct arc a = arc_of(in + 2, marks);
    if (a.ellipse)
        return give_distance(p, point_at(a, nearest_of_ellipse(a, p)), out);
    double dx = p.x - a.center.x, dy = p.y - a.center.y, d = hypot(dx, dy);
    struct point on = {a.center.x + a.radius * dx / d, a.center.y + a.radius * dy / d};
    if (reaches(a, atan2(dy, dx))) {
        out[0] = fabs(d - a.radius);
        return give_point(on, out + 1);
    }
    struct point s = point_at(a, a.start), e = point_at(a, a.end);
    return give_distance(p, distance(p, s) < distance(p, e) ? s : e, out);
}
