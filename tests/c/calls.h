/* What is tried of every call that answers with a refusal and with numbers. */
#ifndef CALLS_H
#define CALLS_H

#include "arcs.h"
#include "known.h"

enum { MOST_IN = 14, MOST_OUT = 22 };

struct call {
    const char *name;
    /* A letter for each number taken: c of a coordinate, a of an angle; a capital where the answer depends on it. */
    const char *takes;
    size_t gives;
    /* The bits of its marks, and those of them that the answer depends on. */
    uint32_t marks, reads;
    /* How far an answer may be from what is known. */
    double near;
    uint32_t (*ask)(const double *in, uint32_t marks, double *out, size_t out_len);
    known *known;
};

struct drawing {
    uint32_t marks;
    double in[MOST_IN];
};

/* Tries the call on its drawings: the answers; that in some drawing the exchange of any two numbers, of any two marks or of
 * any two answers would be seen; each number at its limit, beyond it, infinite and NaN. */
void try_answers(const struct call *c, const struct drawing *drawings, size_t count);
/* Tries it with an `out` that is too short, and with one that is too long. */
void try_lengths(const struct call *c, const struct drawing *d);
/* Both. */
void try_call(const struct call *c, const struct drawing *drawings, size_t count);

#define TRY(call, drawings) try_call(call, drawings, sizeof(drawings) / sizeof(drawings)[0])

/* A number that no call writes. */
#define UNTOUCHED (-12345.678)
void fill(double *numbers, size_t count);
int untouched(const double *numbers, size_t count);

#endif
