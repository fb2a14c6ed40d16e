/* Arcs and circles from points, each by a way of its own: the conversion in the frame of the unit circle, the three-point
 * arc by its bisectors, the fit by the conic of the original's text. */
#include "known.h"
#include <math.h>

static double cross(struct point u, struct point v)
{
    return u.x * v.y - u.y * v.x;
}

static struct point from_to(struct point p, struct point q)
{
    struct point d = {q.x - p.x, q.y - p.y};
    return d;
}

uint32_t known_svg_arc_to_center(const double *in, uint32_t marks, double *out)
{
    double rx = fabs(in[4]), ry = fabs(in[5]), c = cos(in[6]), s = sin(in[6]);
    int large_arc = (marks & 1) != 0, sweep = (marks & 2) != 0;
    if ((fabs(in[0] - in[2]) < 1e-12 && fabs(in[1] - in[3]) < 1e-12) || rx < 1e-12 || ry < 1e-12)
        return 5;
    double ux = (c * (in[2] - in[0]) + s * (in[3] - in[1])) / rx, uy = (c * (in[3] - in[1]) - s * (in[2] - in[0])) / ry;
    double chord = hypot(ux, uy);
    if (chord > 2) {
        rx *= chord / 2;
        ry *= chord / 2;
        ux *= 2 / chord;
        uy *= 2 / chord;
        chord = 2;
    }
    /* From the middle of the chord to the center, in the unit circle's frame; to the left of the chord where the flags differ. */
    double left = (large_arc != sweep ? 1 : -1) * sqrt(fmax(0, 1 - chord * chord / 4)) / chord;
    double mx = -uy * left, my = ux * left;
    double start = atan2(-uy / 2 - my, -ux / 2 - mx), end = atan2(uy / 2 - my, ux / 2 - mx);
    out[0] = (in[0] + in[2]) / 2 + c * rx * mx - s * ry * my;
    out[1] = (in[1] + in[3]) / 2 + s * rx * mx + c * ry * my;
    out[2] = start;
    out[3] = sweep ? start + turned(end - start) : start - turned(start - end);
    out[4] = rx;
    out[5] = ry;
    return 0;
}

uint32_t known_circumscribed_arc(const double *in, uint32_t marks, double *out)
{
    (void)marks;
    struct point p1 = {in[0], in[1]}, p2 = {in[2], in[3]}, p3 = {in[4], in[5]};
    struct point u = from_to(p1, p2), v = from_to(p1, p3);
    double twice = 2 * cross(u, v), uu = u.x * u.x + u.y * u.y, vv = v.x * v.x + v.y * v.y;
    if (fabs(twice) < 1e-12)
        return 5;
    double x = (v.y * uu - u.y * vv) / twice, y = (u.x * vv - v.x * uu) / twice;
    out[0] = p1.x + x;
    out[1] = p1.y + y;
    out[2] = hypot(x, y);
    out[3] = atan2(-y, -x);
    out[4] = atan2(u.y - y, u.x - x);
    out[5] = cross(v, u) > 0;
    return 0;
}

uint32_t known_circle_tangent_through(const double *in, uint32_t marks, double *out)
{
    (void)marks;
    double dx = in[2] - in[0], dy = in[3] - in[1], length = hypot(in[4], in[5]);
    double nx = -in[5] / length, ny = in[4] / length, off = dx * nx + dy * ny;
    if (length < 1e-12 || fabs(off) < 1e-12)
        return 5;
    double k = (dx * dx + dy * dy) / (2 * off);
    out[0] = in[0] + k * nx;
    out[1] = in[1] + k * ny;
    out[2] = fabs(k);
    return 0;
}

/* A line as ax + by + c = 0. */
struct line {
    double a, b, c;
};

static struct line line_of(struct point p, struct point d)
{
    struct line l = {d.y, -d.x, d.x * p.y - d.y * p.x};
    return l;
}

static double value(struct line l, struct point p)
{
    return l.a * p.x + l.b * p.y + l.c;
}

/* 1 or -1: the side of the chord to which a positive bulge goes. */
static double side(struct line chord, struct point p1, struct point t1, struct point p2, struct point t2)
{
    struct point n1 = {-t1.y, t1.x}, n2 = {-t2.y, t2.x};
    double between = cross(n1, n2);
    if (fabs(between) <= 1e-12)
        return 1;
    double s = cross(from_to(p1, p2), n2) / between;
    struct point meeting = {p1.x + s * n1.x, p1.y + s * n1.y};
    return value(chord, meeting) >= 0 ? -1 : 1;
}

uint32_t known_fit_earc_tangent(const double *in, uint32_t marks, double *out)
{
    (void)marks;
    struct point p1 = {in[0], in[1]}, t1 = {in[2], in[3]}, p2 = {in[4], in[5]}, t2 = {in[6], in[7]}, d = from_to(p1, p2);
    double length = hypot(d.x, d.y);
    if (length < 1e-12)
        return 5;
    struct point unit = {d.x / length, d.y / length};
    struct line l = line_of(p1, t1), k = line_of(p2, t2), m = line_of(p1, unit);
    double off = side(m, p1, t1, p2, t2) * in[8] * length / 2;
    struct point target = {(p1.x + p2.x) / 2 - unit.y * off, (p1.y + p2.y) / 2 + unit.x * off};
    if (fabs(value(m, target)) < 1e-12)
        return 5;

    /* The conic l k + w m^2 = 0 as a x^2 + 2 b xy + c y^2 + 2 dx x + 2 dy y + f = 0. */
    double w = -value(l, target) * value(k, target) / (value(m, target) * value(m, target));
    double a = l.a * k.a + w * m.a * m.a, b = (l.a * k.b + l.b * k.a) / 2 + w * m.a * m.b, c = l.b * k.b + w * m.b * m.b;
    double dx = (l.a * k.c + l.c * k.a) / 2 + w * m.a * m.c, dy = (l.b * k.c + l.c * k.b) / 2 + w * m.b * m.c, f = l.c * k.c + w * m.c * m.c;
    double det = a * c - b * b, root = hypot(a - c, 2 * b);
    if (det <= 1e-12)
        return 5;
    double cx = (b * dy - c * dx) / det, cy = (b * dx - a * dy) / det;
    double first = (a + c + root) / 2, second = (a + c - root) / 2, rest = f + dx * cx + dy * cy;
    if (-rest / first <= 0 || -rest / second <= 0)
        return 5;
    struct arc e = {{cx, cy}, sqrt(-rest / first), sqrt(-rest / second), atan2(first - a, b), 0, 0, 0, 0, 1};
    if (fabs(b) <= 1e-12)
        e.rotation = a <= c ? 0 : TAU / 4;
    e.start = theta_of(e, p1);
    e.end = theta_of(e, p2);
    struct point start = tangent_at(e, e.start);
    double given[8] = {cx, cy, e.radius, e.radius_b, e.rotation, e.start, e.end, start.x * t1.x + start.y * t1.y > 0};
    for (int i = 0; i < 8; i++)
        out[i] = given[i];
    return 0;
}
