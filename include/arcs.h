/*
 * arcs.h: segments, circular arcs and arcs of ellipses, for C and for whatever speaks C's calling convention.
 * Link libarcs.a and the mathematics library (-larcs -lm).
 *
 * ANSWERS. A call that returns a uint32_t gives ARCS_OK, or the number of its refusal, and then it has written nothing.
 * Where more than one refusal would do, the one with the lowest number is given. Such a call takes any numbers, and any
 * lengths that are true of its slices.
 *
 * SLICES. A slice is a pointer and a length, the length being how many numbers it has; what a call says of `out`, `room`
 * and `counts` is how many it needs, and more are left alone. The pointer is not null and is aligned, also where the
 * length is 0. A slice that a call writes overlaps no other of that call.
 *
 * ARCS. An arc is a slice of seven numbers, in this order: center x, center y, radius, radius_b, rotation, start, end; and
 * marks. Angles are in radians. All seven numbers are tested whatever the marks, and some calls read radius_b and rotation
 * of a circle too: give a circle's radius twice, and the rotation 0. A number that a short slice lacks counts as a NaN.
 * The span of a partial arc is end - start where it goes counter-clockwise, else start - end, with a slack of 1e-9 past the
 * end; where it is below -1e-9 the arc has no points for spans and crossings.
 *
 * ARITHMETIC. A call asks that the processor rounds to nearest, keeps subnormal numbers and traps no floating-point
 * exception. A C program starts so, unless it is linked with -ffast-math, -Ofast or -funsafe-math-optimizations, by which
 * the whole process flushes subnormal numbers to zero. There, and where fesetround has set another direction, the bits
 * differ and nothing is promised of them: flushed, arcs_sqrt(0x1p-1023) is 0x1p-1023 itself. A call may raise exception
 * flags.
 *
 * THREADS. The library has no state, allocates nothing and keeps no pointer. Any thread may make any call at any time, as
 * long as no slice that one call writes is used by another.
 */
#ifndef ARCS_H
#define ARCS_H

#include <stddef.h>
#include <stdint.h>

#define ARCS_VERSION_MAJOR 0
#define ARCS_VERSION_MINOR 1
#define ARCS_VERSION_PATCH 0
#define ARCS_VERSION "0.1.0"

#ifdef __cplusplus
extern "C" {
#endif

/* What a call returns. Every call that returns it can refuse with 1, 2 and 4, but for arcs_sin_cos and arcs_hit, which can
 * with 4 alone. What else it can refuse with is said at the call. */
#define ARCS_OK 0u
/* Some number is NaN or infinite. What stands in `out`, `room` and `counts` is not looked at. */
#define ARCS_REFUSED_NOT_A_NUMBER 1u
/* Some number is beyond its limit: coordinates, radii, parts of a direction and bulge are at most 1,048,576 in size,
 * angles and parameters at most 1,024. An answer can be beyond these limits, and is then refused when handed back. */
#define ARCS_REFUSED_BEYOND_LIMIT 2u
/* The depth is above 3. */
#define ARCS_REFUSED_TOO_DEEP 3u
/* `out`, `room` or `counts` is shorter than the call needs. */
#define ARCS_REFUSED_ROOM_TOO_SHORT 4u
/* There is no such arc or circle. */
#define ARCS_REFUSED_DEGENERATE 5u
/* The angle is outside a partial arc's span. */
#define ARCS_REFUSED_OUTSIDE_SPAN 6u

/* The marks of an arc, added together. Others are not read. */
#define ARCS_MARK_CCW 1u     /* counter-clockwise from start to end; else clockwise */
#define ARCS_MARK_CLOSED 2u  /* the whole curve */
#define ARCS_MARK_ELLIPSE 4u /* an ellipse of radius and radius_b, turned by rotation */
/* In arcs_intersect alone: the curve is a segment, a slice of four numbers, x1, y1, x2, y2. */
#define ARCS_MARK_SEGMENT 8u

/* How many numbers an arc has, and how many a hit: the parameter on the first curve, that on the second, x, y. */
#define ARCS_ARC_NUMBERS 7u
#define ARCS_HIT_NUMBERS 4u

/* ---- Roots and angles. Outside its domain a call gives the NaN, as bits 7ff8000000000000. */

double arcs_sqrt(double x);
double arcs_sin(double x);
double arcs_cos(double x);
/* The angle of the point (x, y), from -pi to pi. */
double arcs_atan2(double y, double x);
double arcs_acos(double c);
/* out: 2 numbers, the sine and the cosine. */
uint32_t arcs_sin_cos(double x, double *out, size_t out_len);

/* ---- Points and tangents. out: 2 numbers, x and y. */

/* The point of an ellipse at the parametric angle t. */
uint32_t arcs_ellipse_point(double cx, double cy, double rx, double ry, double rot, double t, double *out, size_t out_len);
/* The derivative of that point by t: the direction in which t grows, whatever the arc's own. */
uint32_t arcs_ellipse_tangent(double rx, double ry, double rot, double t, double *out, size_t out_len);
/* The same of an arc, whose center, radii and rotation are read. t need not be in its span. */
uint32_t arcs_arc_point_at(const double *a, size_t a_len, uint32_t a_marks, double t, double *out, size_t out_len);
uint32_t arcs_arc_tangent_at(const double *a, size_t a_len, uint32_t a_marks, double t, double *out, size_t out_len);
/* The points at the arc's start and end, also where it is closed. */
uint32_t arcs_arc_start_pos(const double *a, size_t a_len, uint32_t a_marks, double *out, size_t out_len);
uint32_t arcs_arc_end_pos(const double *a, size_t a_len, uint32_t a_marks, double *out, size_t out_len);

/* ---- Spans and parameters. */

/* out: 1 number, the angle v brought to 0 .. 2 pi by whole turns. */
uint32_t arcs_norm_tau(double v, double *out, size_t out_len);
/* out: 1 number, the angle theta as a parameter of the arc: whole turns are added or taken off until it is the first from
 * the start on, in the arc's direction; upward where the arc is closed. ARCS_REFUSED_OUTSIDE_SPAN where that is more than
 * 1e-9 past the end of a partial arc. */
uint32_t arcs_arc_param_in_span(const double *a, size_t a_len, uint32_t a_marks, double theta, double *out, size_t out_len);
/* out: 2 numbers, both radii; of a circle the radius twice. */
uint32_t arcs_arc_radii(const double *a, size_t a_len, uint32_t a_marks, double *out, size_t out_len);
/* out: 1 number, the parametric angle of a point (px, py) on the curve or near it, by the radii of arcs_arc_radii; the NaN
 * where such a radius is 0 and so is that coordinate in the arc's own frame. */
uint32_t arcs_arc_theta_of_pos(const double *a, size_t a_len, uint32_t a_marks, double px, double py, double *out, size_t out_len);
/* out: 1 number, the same by radius and radius_b whatever the marks, a radius below 1e-12 being taken for 1e-12. */
uint32_t arcs_arc_param_at_point(const double *a, size_t a_len, uint32_t a_marks, double px, double py, double *out, size_t out_len);
/* out: 1 number, the parameter of the arc's point nearest to (px, py); of a partial circle whose span, that of
 * arcs_arc_param_in_span, has no point in that direction the parameter of its nearer end, the start where both are as near.
 * Of an ellipse it is searched for, from 129 samples of the span on. */
uint32_t arcs_nearest_arc_param(const double *a, size_t a_len, uint32_t a_marks, double px, double py, double *out, size_t out_len);

/* ---- Segments and lines. */

/* out: 1 number, the distance from the point p to the segment from a to b; to a where it is shorter than 1e-6. */
uint32_t arcs_point_to_segment_dist(double px, double py, double ax, double ay, double bx, double by, double *out, size_t out_len);
/* out: 2 numbers, the point of the segment nearest to p; a where it is shorter than 1e-6. */
uint32_t arcs_project_onto_segment(double px, double py, double ax, double ay, double bx, double by, double *out, size_t out_len);
/* out: 2 numbers, where the line through points 1 and 2 meets the line through points 3 and 4; the middle between points 1
 * and 3 where the cross product of the two differences is below 1e-12 in size: of lines that are nearly parallel, and of
 * points that are close together at any angle. */
uint32_t arcs_line_line_intersection(double x1, double y1, double x2, double y2, double x3, double y3, double x4, double y4,
                                     double *out, size_t out_len);

/* ---- Crossings. The hits go to `room`, four numbers each: the parameter on the first curve, the parameter on the
 * second, x, y. A segment's parameter is 0 at its first point and 1 at its second. Numbers after the hits stay as they
 * were. A pair without crossings has no hits and is no refusal. */

/* Segments from (ax1, ay1) to (ax2, ay2) and from (bx1, by1) to (bx2, by2). No hit where their cross product is below 1e-12
 * in size, as of the lines above. room: 4 numbers. counts: 1, the hits. */
uint32_t arcs_intersect_segments(double ax1, double ay1, double ax2, double ay2, double bx1, double by1, double bx2, double by2,
                                 double *room, size_t room_len, uint64_t *counts, size_t counts_len);
/* The segment from (x1, y1) to (x2, y2) and the arc a, hits along the segment. room: 8 numbers. counts: 1, the hits. */
uint32_t arcs_intersect_segment_arc(double x1, double y1, double x2, double y2, const double *a, size_t a_len, uint32_t a_marks,
                                    double *room, size_t room_len, uint64_t *counts, size_t counts_len);
/* Two arcs. room: 8 numbers for two circles, 1,024 times 2^depth where one is an ellipse; then the span of a is cut into
 * 256 times 2^depth cells, and a cell is a bracket where its two ends lie on different sides of b's curve, or its first end
 * on it; from depth 1 on the last cell also where its last end lies on it. A cell that is crossed twice is none, so that a
 * small hole can be missed; a greater depth sees smaller ones.
 * Hits in the order of the cells; of two circles first the one to the left of the way from a's center to b's.
 * counts: 6, the hits; the brackets; of these those outside a's span, outside b's span, and double; the points of a that
 * were worked out. All but the hits are 0 where nothing is sampled. ARCS_REFUSED_TOO_DEEP for two circles too. */
uint32_t arcs_intersect_arcs(const double *a, size_t a_len, uint32_t a_marks, const double *b, size_t b_len, uint32_t b_marks, uint32_t depth,
                             double *room, size_t room_len, uint64_t *counts, size_t counts_len);
/* Two curves, each an arc or, with the mark ARCS_MARK_SEGMENT, a segment. room: as for the pair in hand, 4 numbers for two
 * segments, 8 for a segment and an arc. counts: 6, as above. ARCS_REFUSED_TOO_DEEP for every pair. */
uint32_t arcs_intersect(const double *a, size_t a_len, uint32_t a_marks, const double *b, size_t b_len, uint32_t b_marks, uint32_t depth,
                        double *room, size_t room_len, uint64_t *counts, size_t counts_len);
/* The hit i, the first being 0, of a room that holds `count` hits. out: 4 numbers, those of the hit. counts: 1, how many
 * were written: 4, or 0 where there is no such hit or it does not fit in the room. */
uint32_t arcs_hit(const double *room, size_t room_len, size_t count, size_t i, double *out, size_t out_len, uint64_t *counts, size_t counts_len);

/* ---- Distances, and arcs and circles from points. All but the first can refuse with ARCS_REFUSED_DEGENERATE. */

/* out: 3 numbers, the distance from (px, py) to the arc, and x and y of the arc's point that has it; of a partial circle
 * whose span has no point in that direction its nearer end, the end where both are as near. The span is here the difference
 * brought to 0 .. 2 pi, without slack: a whole turn counts as none. Of an ellipse it is searched for, from 65 samples on. */
uint32_t arcs_point_to_arc_dist(double px, double py, const double *a, size_t a_len, uint32_t a_marks, double *out, size_t out_len);
/* An SVG arc from point 1 to point 2. A flag is set where it is not 0. rotation is in radians. Degenerate: the points less
 * than 1e-12 apart in x and in y, or a radius below 1e-12 in size.
 * out: 6 numbers, center x and y, start, end, and rx and ry as they are used: positive, and enlarged where they are too
 * short for the points. The end is not below the start where sweep is set, and not above it where
 * it is not. */
uint32_t arcs_svg_arc_to_center(double x1, double y1, double x2, double y2, double rx, double ry, double rotation, uint32_t large_arc,
                                uint32_t sweep, double *out, size_t out_len);
/* The arc from point 1 to point 2 through point 3. Degenerate: four times the area of the triangle below 1e-12.
 * out: 6 numbers, center x and y, radius, start, end, and ccw as 1 or 0. The angles are from -pi to pi, so that the end can
 * lie before the start in the arc's direction: add or take off 2 pi before the arc is handed on. */
uint32_t arcs_circumscribed_arc(double x1, double y1, double x2, double y2, double x3, double y3, double *out, size_t out_len);
/* The circle through s and e that has the direction t, of either sign, at s. Degenerate: a direction shorter than 1e-12,
 * or e less than 1e-12 from the tangent. out: 3 numbers, center x and y, radius. */
uint32_t arcs_circle_tangent_through(double sx, double sy, double ex, double ey, double tx, double ty, double *out, size_t out_len);
/* The arc of an ellipse from point 1 to point 2 with the tangents (tx1, ty1) and (tx2, ty2) there, of either sign at point
 * 2; the ellipse also passes bulge half chords from the middle of the chord, at a right angle to it, for a positive bulge on
 * the side where the normals at the two points meet. Degenerate: points less than 1e-12 apart, a bulge that is less than
 * 1e-12 from the chord, no ellipse among the curves that do so, or directions so short that a test against 1e-12 takes it
 * for none: give unit directions. out: 8 numbers, center x and y, rx, ry, rotation, start, end, and ccw as 1 or 0, the angles
 * from -pi to pi as in arcs_circumscribed_arc. An ellipse whose axes are parallel to x and y, the radii not equal, comes
 * with its axes exchanged, as the original has it: its start is then not at point 1. */
uint32_t arcs_fit_earc_tangent(double x1, double y1, double tx1, double ty1, double x2, double y2, double tx2, double ty2, double bulge,
                               double *out, size_t out_len);

#ifdef __cplusplus
}
#endif

#endif
