/* Roots and angles: against C's own, at more places than one, and outside their domains. */
#include "calls.h"
#include "check.h"
#include "tests.h"
#include <inttypes.h>
#include <math.h>
#include <string.h>

/* The angles are within 2^-44 of their series, and C's own within a few units of the last place. */
#define NEAR 0x1p-43

static uint64_t bits_of(double x)
{
    uint64_t bits;
    memcpy(&bits, &x, sizeof bits);
    return bits;
}

static void is(const char *words, double given, double expected)
{
    check(bits_of(given) == bits_of(expected), "%s is %.17g, not %.17g", words, given, expected);
}

static void is_near(const char *words, double at, double given, double expected)
{
    check(fabs(given - expected) <= NEAR, "%s at %.17g is %.17g, not %.17g", words, at, given, expected);
}

static void is_the_nan(const char *words, double given)
{
    check(bits_of(given) == UINT64_C(0x7ff8000000000000), "%s has the bits %016" PRIx64, words, bits_of(given));
}

static void roots(void)
{
    is("the root of 2.25", arcs_sqrt(2.25), 1.5);
    is("the root of 1048576", arcs_sqrt(1048576.0), 1024.0);
    is("the root of -0", arcs_sqrt(-0.0), -0.0);
    is("the root of infinity", arcs_sqrt(INFINITY), INFINITY);
    is("the root of the least number", arcs_sqrt(0x1p-1074), 0x1p-537);
    is("the root of 2^-1023, in which a flush to zero would be seen", arcs_sqrt(0x1p-1023), sqrt(2.0) * 0x1p-512);
    is_the_nan("the root of -1", arcs_sqrt(-1.0));
    is_the_nan("the root of a NaN", arcs_sqrt(NAN));
}

static void angles(void)
{
    static const double at[] = {-1000.5, -2.75, -0.3, 0.0, 0.625, 1.25, 3.5, 5.875, 700.25};
    for (size_t i = 0; i < sizeof at / sizeof at[0]; i++) {
        double both[3] = {UNTOUCHED, UNTOUCHED, UNTOUCHED};
        is_near("the sine", at[i], arcs_sin(at[i]), sin(at[i]));
        is_near("the cosine", at[i], arcs_cos(at[i]), cos(at[i]));
        check(arcs_sin_cos(at[i], both, 3) == ARCS_OK, "sine and cosine at %g refused", at[i]);
        is("the sine of both", both[0], arcs_sin(at[i]));
        is("the cosine of both", both[1], arcs_cos(at[i]));
        check(untouched(both + 2, 1), "sine and cosine write past their answer");
    }
    is_the_nan("the sine of infinity", arcs_sin(INFINITY));
    is_the_nan("the cosine of minus infinity", arcs_cos(-INFINITY));
    is_the_nan("the sine of a NaN", arcs_sin(NAN));
}

static void sine_and_cosine_too_short(void)
{
    for (size_t len = 0; len < 2; len++) {
        double both[2] = {UNTOUCHED, UNTOUCHED};
        check(arcs_sin_cos(NAN, both, len) == ARCS_REFUSED_ROOM_TOO_SHORT, "sine and cosine in a slice of %zu", len);
        check(untouched(both, 2), "sine and cosine refused and wrote");
    }
}

static void inverses(void)
{
    static const double y[] = {0.5, 3.0, -0.25, -7.0, 2.0, 0.0}, x[] = {2.0, -0.75, 4.0, -1.5, 0.0, -3.0};
    for (size_t i = 0; i < sizeof y / sizeof y[0]; i++)
        is_near("the arctangent with y", y[i], arcs_atan2(y[i], x[i]), atan2(y[i], x[i]));
    for (double c = -1; c <= 1; c += 0.125)
        is_near("the arccosine", c, arcs_acos(c), acos(c));
    is("the arctangent of -0 and 0", arcs_atan2(-0.0, 0.0), -0.0);
    is("the arctangent of 0 and -0", arcs_atan2(0.0, -0.0), 0x1.921fb54442d18p1);
    is_the_nan("the arctangent of a NaN", arcs_atan2(NAN, 1.0));
    is_the_nan("the arctangent with a NaN", arcs_atan2(1.0, NAN));
    is_the_nan("the arccosine of 1.5", arcs_acos(1.5));
}

void test_routines(void)
{
    group("roots and angles");
    roots();
    angles();
    sine_and_cosine_too_short();
    inverses();
}
