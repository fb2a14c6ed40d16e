/*
 * One number for the bits of many answers, so that two builds of the library can be compared: bench/arm. Then all answers that are
 * the NaN, which must have the bits 7ff8000000000000, whatever NaN the processor itself makes or was given. Ends with 1 where one
 * has others. Inputs are drawn into `v` before a call, as C leaves the order of a call's arguments open.
 */
#include "arcs.h"
#include <inttypes.h>
#include <stdio.h>
#include <string.h>

enum { ROUNDS = 200000, SEARCHED = 50, OUT = 8, ROOM = 8192, COUNTS = 6 };

static uint64_t state = 88172645463325252u;
static uint64_t sum = 1469598103934665603u;
static double v[16];

static uint64_t drawn(void) {
    state ^= state << 13;
    state ^= state >> 7;
    state ^= state << 17;
    return state;
}

/* Sixteen numbers between -size and size. */
static void draw(double size) {
    for (int i = 0; i < 16; i++)
        v[i] = size * ((double)(drawn() >> 11) / 4503599627370496.0 - 1.0);
}

/* The upper half comes down again: else a sign would count in the highest bit alone, and two of them for nothing. */
static void add(uint64_t word) {
    sum = (sum ^ word) * 1099511628211u;
    sum ^= sum >> 32;
}

static uint64_t bits_of(double x) {
    uint64_t bits;
    memcpy(&bits, &x, sizeof bits);
    return bits;
}

static void add_number(double x) { add(bits_of(x)); }

static void add_answer(uint32_t refusal, const double *numbers, size_t n) {
    add(refusal);
    for (size_t i = 0; refusal == 0 && i < n; i++)
        add_number(numbers[i]);
}

static void routines(void) {
    draw(1100.0);
    add_number(arcs_sin(v[0]));
    add_number(arcs_cos(v[1] / 100.0));
    add_number(arcs_atan2(v[2], v[3]));
    add_number(arcs_acos(v[4] / 1000.0));
    add_number(arcs_sqrt(v[5] + 1100.0));
}

static void points(const double *a, uint32_t marks) {
    double out[OUT];
    draw(9.0);
    add_answer(arcs_arc_point_at(a, 7, marks, v[0], out, OUT), out, 2);
    add_answer(arcs_arc_tangent_at(a, 7, marks, v[1], out, OUT), out, 2);
    add_answer(arcs_arc_param_in_span(a, 7, marks, v[2], out, OUT), out, 1);
    add_answer(arcs_arc_theta_of_pos(a, 7, marks, v[3], v[4], out, OUT), out, 1);
}

static void shapes(void) {
    double out[OUT];
    draw(9.0);
    add_answer(arcs_svg_arc_to_center(v[0], v[1], v[2], v[3], v[4], v[5], v[6], v[7] > 0.0, v[8] > 0.0, out, OUT), out, 6);
    add_answer(arcs_circumscribed_arc(v[0], v[1], v[2], v[3], v[4], v[5], out, OUT), out, 6);
    add_answer(arcs_circle_tangent_through(v[0], v[1], v[2], v[3], v[4], v[5], out, OUT), out, 3);
    add_answer(arcs_fit_earc_tangent(v[0], v[1], v[2], v[3], v[4], v[5], v[6], v[7], v[8], out, OUT), out, 8);
}

static void searched(const double *a, uint32_t a_marks, const double *b, uint32_t b_marks, uint32_t depth) {
    static double room[ROOM];
    double out[OUT];
    uint64_t counts[COUNTS];
    draw(100.0);
    add_answer(arcs_point_to_arc_dist(v[0], v[1], a, 7, a_marks, out, OUT), out, 3);
    add_answer(arcs_nearest_arc_param(a, 7, a_marks, v[2], v[3], out, OUT), out, 1);
    uint32_t refusal = arcs_intersect_arcs(a, 7, a_marks, b, 7, b_marks, depth, room, ROOM, counts, COUNTS);
    add_answer(refusal, room, refusal == 0 ? 4 * counts[0] : 0);
    for (int i = 0; refusal == 0 && i < COUNTS; i++)
        add(counts[i]);
}

/* ---- Answers that are the NaN. */

static int nans, others;

static void is_nan(double x) {
    nans++;
    if (bits_of(x) != 0x7ff8000000000000u) {
        others++;
        fprintf(stderr, "answer %d: %016" PRIx64 "\n", nans, bits_of(x));
    }
}

/* Of both signs: quiet ones, with and without other digits, and signalling ones. */
static const uint64_t NAN_SIZES[] = {0x7ff8000000000000u, 0x7ff8000000c0ffeeu, 0x7fffffffffffffffu, 0x7ff0000000000001u, 0x7ff4000000000000u};
/* Beside them, and where a NaN comes of a number: infinities, what is below 0 or outside -1 to 1. */
static const uint64_t INFINITE = 0x7ff0000000000000u, LARGEST = 0x7fefffffffffffffu, ABOVE_ONE = 0x3ff0000000000001u, LEAST = 1;

enum { SIGN = 2 };

static double number(uint64_t size, int negative) {
    double x;
    uint64_t bits = size | (uint64_t)negative << 63;
    memcpy(&x, &bits, sizeof x);
    return x;
}

static void sines_are_nan(double x) {
    double out[2] = {0.0, 0.0};
    is_nan(arcs_sin(x));
    is_nan(arcs_cos(x));
    if (arcs_sin_cos(x, out, 2) != 0)
        others++;
    is_nan(out[0]);
    is_nan(out[1]);
}

static void theta_is_nan(double radius, double radius_b, double rotation, uint32_t marks, double x, double y) {
    double a[7] = {x, y, radius, radius_b, rotation, 0.0, 1.0}, out[1] = {0.0};
    if (arcs_arc_theta_of_pos(a, 7, marks, x, y, out, 1) != 0)
        others++;
    is_nan(out[0]);
}

static void routines_at_nan(double x) {
    const uint64_t beside[] = {0, LEAST, 0x3ff0000000000000u, LARGEST, INFINITE, 0x7ff8000000000000u, 0x7ff0000000000001u};
    is_nan(arcs_sqrt(x));
    is_nan(arcs_acos(x));
    sines_are_nan(x);
    for (size_t i = 0; i < sizeof beside / sizeof *beside; i++)
        for (int negative = 0; negative < SIGN; negative++) {
            is_nan(arcs_atan2(x, number(beside[i], negative)));
            is_nan(arcs_atan2(number(beside[i], negative), x));
        }
}

/* A hit that is asked for is the caller's own numbers, whatever their bits. */
static void hit_is_own(void) {
    double room[4], out[4] = {0.0, 0.0, 0.0, 0.0};
    uint64_t counts[1];
    for (int i = 0; i < 4; i++)
        room[i] = number(NAN_SIZES[i + 1], i % SIGN);
    if (arcs_hit(room, 4, 1, 0, out, 4, counts, 1) != 0 || memcmp(room, out, sizeof out) != 0) {
        others++;
        fprintf(stderr, "a hit has other bits than the room\n");
    }
}

static void all_nans(void) {
    const uint64_t outside[] = {ABOVE_ONE, 0x4000000000000000u, LARGEST, INFINITE};
    const uint64_t below[] = {LEAST, 0x3ff0000000000000u, LARGEST, INFINITE};
    for (int negative = 0; negative < SIGN; negative++) {
        for (size_t i = 0; i < sizeof NAN_SIZES / sizeof *NAN_SIZES; i++)
            routines_at_nan(number(NAN_SIZES[i], negative));
        for (size_t i = 0; i < sizeof outside / sizeof *outside; i++)
            is_nan(arcs_acos(number(outside[i], negative)));
        sines_are_nan(number(INFINITE, negative));
        /* the point at the center, and a radius of 0: a zero by a zero */
        for (uint32_t marks = 0; marks < 8; marks++) {
            double zero = number(0, negative);
            theta_is_nan(zero, zero, 0.0, marks, 0.0, 0.0);
            theta_is_nan(zero, zero, 1.0, marks, 3.0, -4.0);
            theta_is_nan(zero, 1.0, 0.0, marks, 3.0, -4.0);
        }
    }
    for (size_t i = 0; i < sizeof below / sizeof *below; i++)
        is_nan(arcs_sqrt(number(below[i], 1)));
}

/* The NaN that the processor makes, for whoever reads: where it has another sign the comparison says more. */
static void processors_own(void) {
    volatile double zero = 0.0;
    fprintf(stderr, "0.0 / 0.0 on this processor: %016" PRIx64 "\n", bits_of(zero / zero));
}

int main(void) {
    for (int i = 0; i < ROUNDS; i++) {
        draw(100.0);
        double a[7] = {v[0], v[1], v[2] + 101.0, v[3] + 101.0, v[4] / 16.0, v[5] / 16.0, v[6] / 12.0};
        double b[7] = {v[0] + v[7], v[1] + v[8], v[9] + 101.0, v[10] + 101.0, v[11] / 16.0, v[12] / 16.0, v[13] / 12.0};
        uint32_t a_marks = drawn() % 8, b_marks = drawn() % 8;
        routines();
        points(a, a_marks);
        shapes();
        if (i % SEARCHED == 0)
            searched(a, a_marks, b, b_marks, i / SEARCHED % 4);
    }
    printf("%d inputs a call, %d where samples are taken: %016" PRIx64 "\n", ROUNDS, ROUNDS / SEARCHED, sum);
    processors_own();
    all_nans();
    hit_is_own();
    printf("%d answers are the NaN, %d of them with other bits\n", nans, others);
    return others > 0;
}
