/* Lines and crossings; the hunt after the rule of its cells, brackets and fates. */
#include "known.h"
#include <math.h>
#include <string.h>

static struct point along(const double *segment, double t)
{
    struct point p = {segment[0] + t * (segment[2] - segment[0]), segment[1] + t * (segment[3] - segment[1])};
    return p;
}

static double clamped(double t)
{
    return t < 0 ? 0 : t > 1 ? 1 : t;
}

uint32_t known_project_onto_segment(const double *in, uint32_t marks, double *out)
{
    (void)marks;
    double dx = in[4] - in[2], dy = in[5] - in[3];
    double t = clamped(((in[0] - in[2]) * dx + (in[1] - in[3]) * dy) / (dx * dx + dy * dy));
    struct point p = along(in + 2, t);
    out[0] = p.x;
    out[1] = p.y;
    return 0;
}

uint32_t known_point_to_segment_dist(const double *in, uint32_t marks, double *out)
{
    double p[2];
    known_project_onto_segment(in, marks, p);
    out[0] = hypot(in[0] - p[0], in[1] - p[1]);
    return 0;
}

/* Where two lines meet, as parameters on each. 0 where they are as good as parallel. */
static int meet(const double *a, const double *b, double *t_a, double *t_b)
{
    double ux = a[2] - a[0], uy = a[3] - a[1], vx = b[2] - b[0], vy = b[3] - b[1], wx = b[0] - a[0], wy = b[1] - a[1];
    double cross = ux * vy - uy * vx;
    *t_a = (wx * vy - wy * vx) / cross;
    *t_b = (wx * uy - wy * ux) / cross;
    return !(fabs(cross) < 1e-12);
}

uint32_t known_line_line_intersection(const double *in, uint32_t marks, double *out)
{
    (void)marks;
    double t_a, t_b;
    struct point p = {(in[0] + in[4]) / 2, (in[1] + in[5]) / 2};
    if (meet(in, in + 4, &t_a, &t_b))
        p = along(in, t_a);
    out[0] = p.x;
    out[1] = p.y;
    return 0;
}

static void add(struct found *f, double t_a, double t_b, struct point pos)
{
    struct hit h = {t_a, t_b, pos};
    if (f->hits < KEPT)
        f->hit[f->hits] = h;
    f->hits++;
}

static int on_segment(double t)
{
    return t >= -1e-9 && t <= 1 + 1e-9;
}

struct found cross_segments(const double *a, const double *b)
{
    struct found f;
    memset(&f, 0, sizeof f);
    double t_a, t_b;
    if (meet(a, b, &t_a, &t_b) && on_segment(t_a) && on_segment(t_b))
        add(&f, clamped(t_a), clamped(t_b), along(a, t_a));
    return f;
}

/* p in the arc's frame, where its curve is the unit circle. */
static struct point to_unit(struct arc a, struct point p)
{
    struct point r = radii_of(a);
    double dx = p.x - a.center.x, dy = p.y - a.center.y, c = cos(a.rotation), s = sin(a.rotation);
    struct point u = {(c * dx + s * dy) / r.x, (c * dy - s * dx) / r.y};
    return u;
}

struct found cross_segment_arc(const double *segment, struct arc a)
{
    struct found f;
    memset(&f, 0, sizeof f);
    struct point r = radii_of(a), u = to_unit(a, along(segment, 0)), v = to_unit(a, along(segment, 1));
    if (r.x < 1e-12 || r.y < 1e-12)
        return f;
    double dx = v.x - u.x, dy = v.y - u.y, square = dx * dx + dy * dy, half = u.x * dx + u.y * dy;
    double root = sqrt(half * half - square * (u.x * u.x + u.y * u.y - 1));
    for (int side = -1; side <= 1; side += 2) {
        double t = (-half + side * root) / square, theta, t_b;
        if (isnan(t) || !on_segment(t))
            continue;
        t = clamped(t);
        theta = atan2(u.y + t * dy, u.x + t * dx);
        if (in_span(a, theta, &t_b))
            add(&f, t, t_b, along(segment, t));
    }
    return f;
}

static struct found cross_circles(struct arc a, struct arc b)
{
    struct found f;
    memset(&f, 0, sizeof f);
    double dx = b.center.x - a.center.x, dy = b.center.y - a.center.y, d = hypot(dx, dy);
    double to_chord = (a.radius * a.radius - b.radius * b.radius + d * d) / (2 * d);
    double half = sqrt(a.radius * a.radius - to_chord * to_chord);
    for (int side = 1; side >= -1 && !isnan(half); side -= 2) {
        struct point p = {a.center.x + (to_chord * dx - side * half * dy) / d, a.center.y + (to_chord * dy + side * half * dx) / d};
        double t_a, t_b;
        if (in_span(a, atan2(p.y - a.center.y, p.x - a.center.x), &t_a) && in_span(b, atan2(p.y - b.center.y, p.x - b.center.x), &t_b))
            add(&f, t_a, t_b, p);
    }
    return f;
}

/* The inside-outside value of a's point at t: 0 on b, negative inside. */
static double inside(struct arc a, struct arc b, double t, struct found *f)
{
    struct point u = to_unit(b, point_at(a, t));
    f->evaluations++;
    return u.x * u.x + u.y * u.y - 1;
}

/* The middle of what 60 halvings leave of a bracket. */
static double halved(struct arc a, struct arc b, double low, double value, double high, struct found *f)
{
    for (int i = 0; i < 60; i++) {
        double middle = 0.5 * (low + high), there = inside(a, b, middle, f);
        if (value * there <= 0) {
            high = middle;
        } else {
            low = middle;
            value = there;
        }
    }
    f->evaluations++;
    return 0.5 * (low + high);
}

static int is_double(const struct found *f, double t_a)
{
    for (uint64_t i = 0; i < f->hits && i < KEPT; i++)
        if (fabs(f->hit[i].t_a - t_a) < 1e-7)
            return 1;
    return 0;
}

static void judge(struct arc a, struct arc b, double t, struct found *f)
{
    struct point pos = point_at(a, t);
    double t_a, t_b;
    f->brackets++;
    if (!in_span(a, t, &t_a))
        f->outside_a++;
    else if (!in_span(b, theta_of(b, pos), &t_b))
        f->outside_b++;
    else if (is_double(f, t_a))
        f->doubles++;
    else
        add(f, t_a, t_b, pos);
}

static struct found hunt(struct arc a, struct arc b, unsigned depth)
{
    struct found f;
    memset(&f, 0, sizeof f);
    struct point r = radii_of(b);
    unsigned cells = 256u << depth;
    double span = a.closed ? TAU : a.end - a.start;
    if (r.x < 1e-12 || r.y < 1e-12 || fabs(span / 256) < 1e-15)
        return f;
    double low = a.start, value = inside(a, b, low, &f);
    for (unsigned i = 1; i <= cells; i++) {
        double high = a.start + span / cells * i, next = inside(a, b, high, &f);
        if (value == 0 || value * next < 0 || (depth > 0 && i == cells && next == 0))
            judge(a, b, halved(a, b, low, value, high, &f), &f);
        low = high;
        value = next;
    }
    return f;
}

struct found cross_arcs(struct arc a, struct arc b, unsigned depth)
{
    return a.ellipse || b.ellipse ? hunt(a, b, depth) : cross_circles(a, b);
}

struct found exchanged(struct found f)
{
    for (int i = 0; i < KEPT; i++) {
        double t = f.hit[i].t_a;
        f.hit[i].t_a = f.hit[i].t_b;
        f.hit[i].t_b = t;
    }
    return f;
}
