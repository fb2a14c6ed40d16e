/* The gasket pair: a flange of radius 1,000 and a bolt hole of radius 10 on its rim.
 *
 *     tools/native-lib
 *     cc -Iinclude examples/gasket.c target/native/libarcs.a -lm
 *
 * or, after `tools/install PREFIX`, with PKG_CONFIG_PATH=PREFIX/lib/pkgconfig:
 *
 *     cc examples/gasket.c $(pkg-config --cflags --libs arcs)
 */
#include <inttypes.h>
#include <stdio.h>
#include "arcs.h"

/* One hit a cell: enough for depth 1. */
enum { CELLS = 512, ROOM = CELLS * ARCS_HIT_NUMBERS, COUNTS = 6 };

static double room[ROOM];

static void search(const char *words, const double *a, uint32_t a_marks, const double *b, uint32_t b_marks, uint32_t depth)
{
    uint64_t counts[COUNTS];
    uint32_t refused = arcs_intersect_arcs(a, ARCS_ARC_NUMBERS, a_marks, b, ARCS_ARC_NUMBERS, b_marks, depth, room, ROOM, counts, COUNTS);
    if (refused != ARCS_OK) {
        printf("%s: refused with %" PRIu32 "\n", words, refused);
        return;
    }
    printf("%s: %" PRIu64 " crossings, %" PRIu64 " brackets, %" PRIu64 " points worked out\n", words, counts[0], counts[1], counts[5]);
    for (uint64_t i = 0; i < counts[0]; i++) {
        const double *h = room + ARCS_HIT_NUMBERS * i;
        printf("    at (%.6f, %.6f), angles %.9f and %.9f\n", h[2], h[3], h[0], h[1]);
    }
}

int main(void)
{
    /* Center x and y, both radii, rotation, start, end. The rim is marked as an ellipse, though its radii are equal; so it
     * is searched, not solved. */
    const double flange[ARCS_ARC_NUMBERS] = {0.0, 0.0, 1000.0, 1000.0, 0.0, 0.0, 0.0};
    const double hole[ARCS_ARC_NUMBERS] = {999.9247, 12.2715, 10.0, 10.0, 0.0, 0.0, 0.0};
    const uint32_t rim = ARCS_MARK_CCW | ARCS_MARK_CLOSED | ARCS_MARK_ELLIPSE;
    const uint32_t circle = ARCS_MARK_CCW | ARCS_MARK_CLOSED;

    search("flange first, 256 cells", flange, rim, hole, circle, 0);
    search("flange first, 512 cells", flange, rim, hole, circle, 1);
    search("hole first, 256 cells", hole, circle, flange, rim, 0);
    return 0;
}
