/*
 * The answers, worked out a second time: the formulas of the original's text, with C's own root, sine, cosine and
 * arctangent. Nothing here knows arcs.h but the numbers of its refusals and the bits of its marks.
 *
 * Each function takes its numbers in the order in which arcs.h has them, and writes its answer in that order too. It gives
 * back the refusal: 0, 5 or 6.
 */
#ifndef KNOWN_H
#define KNOWN_H

#include <stddef.h>
#include <stdint.h>

#define TAU 6.283185307179586476925286766559

struct point {
    double x, y;
};

struct arc {
    struct point center;
    double radius, radius_b, rotation, start, end;
    int ccw, closed, ellipse;
};

struct hit {
    double t_a, t_b;
    struct point pos;
};

/* What a hunt counts, and how many hits of it are kept. */
enum { KEPT = 4 };
struct found {
    uint64_t hits, brackets, outside_a, outside_b, doubles, evaluations;
    struct hit hit[KEPT];
};

/* Seven numbers, and marks whose first three bits are ccw, closed and ellipse. */
struct arc arc_of(const double *numbers, uint32_t marks);
struct point point_at(struct arc a, double t);
struct point tangent_at(struct arc a, double t);
struct point radii_of(struct arc a);
double turned(double angle);
double theta_of(struct arc a, struct point p);
/* Whether the angle is in the arc's span; then *t is its parameter. */
int in_span(struct arc a, double theta, double *t);

struct found cross_segments(const double *a, const double *b);
struct found cross_segment_arc(const double *segment, struct arc a);
struct found cross_arcs(struct arc a, struct arc b, unsigned depth);
struct found exchanged(struct found f);

typedef uint32_t known(const double *in, uint32_t marks, double *out);
known known_ellipse_point, known_ellipse_tangent;
known known_arc_point_at, known_arc_tangent_at, known_arc_start_pos, known_arc_end_pos;
known known_norm_tau, known_arc_param_in_span, known_arc_radii, known_arc_theta_of_pos, known_arc_param_at_point, known_nearest_arc_param;
known known_point_to_segment_dist, known_project_onto_segment, known_line_line_intersection;
known known_point_to_arc_dist, known_circumscribed_arc, known_circle_tangent_through, known_fit_earc_tangent;
/* The marks' first bit is the flag large_arc, the second is sweep. */
known known_svg_arc_to_center;

#endif
