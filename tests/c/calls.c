#include "calls.h"
#include "check.h"
#include <float.h>
#include <math.h>
#include <string.h>

/* Two numbers that differ by less are alike. */
#define APART 1e-3

void fill(double *numbers, size_t count)
{
    for (size_t i = 0; i < count; i++)
        numbers[i] = UNTOUCHED;
}

int untouched(const double *numbers, size_t count)
{
    for (size_t i = 0; i < count; i++)
        if (numbers[i] != UNTOUCHED)
            return 0;
    return 1;
}

static size_t taken(const struct call *c)
{
    return strlen(c->takes);
}

static int is_read(char letter)
{
    return letter == 'C' || letter == 'A';
}

static double limit_of(char letter)
{
    return letter == 'c' || letter == 'C' ? 1048576.0 : 1024.0;
}

/* Whether two answers, refusals among them, are told apart. */
static int differ(const struct call *c, const double *in, uint32_t marks, const double *other, uint32_t other_marks)
{
    double x[MOST_OUT], y[MOST_OUT];
    fill(x, MOST_OUT);
    fill(y, MOST_OUT);
    uint32_t refusal = c->known(in, marks, x);
    if (refusal != c->known(other, other_marks, y))
        return 1;
    if (refusal != ARCS_OK)
        return 0;
    for (size_t i = 0; i < c->gives; i++)
        if (!(fabs(x[i] - y[i]) <= APART))
            return 1;
    return 0;
}

static void all_apart(const char *name, const char *what, const double *numbers, size_t count)
{
    for (size_t i = 0; i < count; i++)
        for (size_t j = i + 1; j < count; j++)
            check(fabs(numbers[i] - numbers[j]) > APART, "%s: %s %zu and %zu are alike, %g and %g", name, what, i, j, numbers[i], numbers[j]);
}

static void try_answer(const struct call *c, const struct drawing *d)
{
    double expected[MOST_OUT], given[MOST_OUT + 1];
    fill(expected, MOST_OUT);
    fill(given, MOST_OUT + 1);
    uint32_t refusal = c->known(d->in, d->marks, expected);
    uint32_t refused = c->ask(d->in, d->marks, given, c->gives);
    check(refused == refusal, "%s, marks %u: refused with %u, not %u", c->name, d->marks, refused, refusal);
    if (refusal != ARCS_OK) {
        check(untouched(given, MOST_OUT + 1), "%s, marks %u: refused and wrote", c->name, d->marks);
        return;
    }
    for (size_t i = 0; i < c->gives; i++)
        check(fabs(given[i] - expected[i]) <= c->near, "%s, marks %u: number %zu is %.17g, not %.17g", c->name, d->marks, i, given[i], expected[i]);
    check(untouched(given + c->gives, MOST_OUT + 1 - c->gives), "%s: wrote past its answer", c->name);
}

static int exchange_seen(const struct call *c, const struct drawing *d, size_t i, size_t j)
{
    double in[MOST_IN];
    memcpy(in, d->in, sizeof in);
    in[i] = d->in[j];
    in[j] = d->in[i];
    return differ(c, d->in, d->marks, in, d->marks);
}

static uint32_t exchanged_bits(uint32_t marks, uint32_t one, uint32_t other)
{
    uint32_t rest = marks & ~(one | other);
    return rest | (marks & one ? other : 0) | (marks & other ? one : 0);
}

static void try_number_exchanges(const struct call *c, const struct drawing *drawings, size_t count)
{
    for (size_t i = 0; i < taken(c); i++)
        for (size_t j = i + 1; j < taken(c); j++) {
            int seen = !is_read(c->takes[i]) && !is_read(c->takes[j]);
            for (size_t k = 0; k < count && !seen; k++)
                seen = exchange_seen(c, &drawings[k], i, j);
            check(seen, "%s: no drawing shows an exchange of its numbers %zu and %zu", c->name, i, j);
        }
}

static int marks_seen(const struct call *c, const struct drawing *drawings, size_t count, uint32_t one, uint32_t other)
{
    for (size_t k = 0; k < count; k++) {
        uint32_t marks = drawings[k].marks, changed = one == other ? marks ^ one : exchanged_bits(marks, one, other);
        if (differ(c, drawings[k].in, marks, drawings[k].in, changed))
            return 1;
    }
    return 0;
}

/* Each mark that is read, set or not; and in the place of each other mark. */
static void try_mark_exchanges(const struct call *c, const struct drawing *drawings, size_t count)
{
    for (uint32_t one = 1; one <= c->marks; one <<= 1)
        for (uint32_t other = one; other <= c->marks; other <<= 1)
            if ((c->marks & one) && (c->marks & other) && (c->reads & (one | other)))
                check(marks_seen(c, drawings, count, one, other), "%s: no drawing shows an exchange of the marks %u and %u", c->name, one, other);
}

/* In one drawing at least, as a circle's radii are alike. */
static void try_answers_apart(const struct call *c, const struct drawing *drawings, size_t count)
{
    for (size_t i = 0; i < c->gives; i++)
        for (size_t j = i + 1; j < c->gives; j++) {
            int seen = 0;
            for (size_t k = 0; k < count && !seen; k++) {
                double out[MOST_OUT];
                fill(out, MOST_OUT);
                seen = c->known(drawings[k].in, drawings[k].marks, out) == 0 && fabs(out[i] - out[j]) > APART;
            }
            check(seen, "%s: no drawing tells its answers %zu and %zu apart", c->name, i, j);
        }
}

static void refused_with(const struct call *c, const double *in, uint32_t marks, size_t out_len, uint32_t refusal)
{
    double out[MOST_OUT];
    fill(out, MOST_OUT);
    uint32_t refused = c->ask(in, marks, out, out_len);
    check(refused == refusal, "%s: refused with %u, not %u", c->name, refused, refusal);
    check(untouched(out, MOST_OUT), "%s: refused with %u and wrote", c->name, refused);
}

/* Each value that is refused in the place of number i; at its limit a number is taken. */
static void try_number(const struct call *c, const struct drawing *d, size_t i)
{
    const double limit = limit_of(c->takes[i]);
    const double unreal[] = {NAN, INFINITY, -INFINITY};
    const double beyond[] = {nextafter(limit, INFINITY), -nextafter(limit, INFINITY), DBL_MAX};
    double in[MOST_IN], out[MOST_OUT];
    memcpy(in, d->in, sizeof in);
    for (size_t k = 0; k < 3; k++) {
        in[i] = unreal[k];
        refused_with(c, in, d->marks, c->gives, ARCS_REFUSED_NOT_A_NUMBER);
        in[i] = beyond[k];
        refused_with(c, in, d->marks, c->gives, ARCS_REFUSED_BEYOND_LIMIT);
    }
    for (int sign = -1; sign <= 1; sign += 2) {
        in[i] = sign * limit;
        uint32_t refused = c->ask(in, d->marks, out, c->gives);
        check(refused == ARCS_OK || refused > ARCS_REFUSED_ROOM_TOO_SHORT, "%s: number %zu at its limit refused with %u", c->name, i, refused);
    }
    /* A NaN is told before a number beyond its limit, wherever the two stand. */
    in[i == 0 ? taken(c) - 1 : 0] = DBL_MAX;
    in[i] = NAN;
    refused_with(c, in, d->marks, c->gives, ARCS_REFUSED_NOT_A_NUMBER);
}

void try_answers(const struct call *c, const struct drawing *drawings, size_t count)
{
    for (size_t k = 0; k < count; k++) {
        all_apart(c->name, "numbers", drawings[k].in, taken(c));
        try_answer(c, &drawings[k]);
    }
    try_number_exchanges(c, drawings, count);
    try_mark_exchanges(c, drawings, count);
    try_answers_apart(c, drawings, count);
    for (size_t i = 0; i < taken(c); i++)
        try_number(c, &drawings[0], i);
}

void try_lengths(const struct call *c, const struct drawing *d)
{
    double in[MOST_IN], out[MOST_OUT], longer[MOST_OUT];
    for (size_t len = 0; len < c->gives; len++) {
        memcpy(in, d->in, sizeof in);
        refused_with(c, in, d->marks, len, ARCS_REFUSED_ROOM_TOO_SHORT);
        in[0] = DBL_MAX;
        refused_with(c, in, d->marks, len, ARCS_REFUSED_BEYOND_LIMIT);
        in[0] = NAN;
        refused_with(c, in, d->marks, len, ARCS_REFUSED_NOT_A_NUMBER);
    }
    fill(out, MOST_OUT);
    fill(longer, MOST_OUT);
    c->ask(d->in, d->marks, out, c->gives);
    check(c->ask(d->in, d->marks, longer, MOST_OUT) == ARCS_OK, "%s: refused an `out` longer than its answer", c->name);
    check(memcmp(out, longer, sizeof out) == 0, "%s: an `out` longer than its answer is filled otherwise", c->name);
}

void try_call(const struct call *c, const struct drawing *drawings, size_t count)
{
    try_answers(c, drawings, count);
    try_lengths(c, &drawings[0]);
}
