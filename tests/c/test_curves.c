/* arcs_intersect: two curves of either kind. */
#include "check.h"
#include "crossings.h"
#include "tests.h"

static size_t numbers_of(uint32_t marks)
{
    return marks & SEGMENT ? 4 : ARCS_ARC_NUMBERS;
}

static uint32_t ask_intersect(const double *in, uint32_t marks, double *out, size_t out_len)
{
    (void)out_len;
    struct lent *l = fresh();
    size_t a = numbers_of(A_MARKS(marks)), b = numbers_of(B_MARKS(marks));
    uint32_t refused = arcs_intersect(in, a, A_MARKS(marks), in + a, b, B_MARKS(marks), DEPTH(marks), l->room, ROOM, l->counts, COUNTS);
    return taken_over("arcs_intersect", refused, l, 6, out);
}

static uint32_t known_intersect(const double *in, uint32_t marks, double *out)
{
    uint32_t a = A_MARKS(marks), b = B_MARKS(marks);
    const double *second = in + numbers_of(a);
    if ((a & SEGMENT) && (b & SEGMENT))
        return laid_out(cross_segments(in, second), 6, out);
    if (a & SEGMENT)
        return laid_out(cross_segment_arc(in, arc_of(second, b)), 6, out);
    if (b & SEGMENT)
        return laid_out(exchanged(cross_segment_arc(second, arc_of(in, a))), 6, out);
    return laid_out(cross_arcs(arc_of(in, a), arc_of(second, b), DEPTH(marks)), 6, out);
}

/* Of a closed form the first count and the hits; the five counts between them are 0, and alike. */
static uint32_t ask_closed(const double *in, uint32_t marks, double *out, size_t out_len)
{
    double whole[MOST_OUT];
    fill(whole, MOST_OUT);
    uint32_t refused = ask_intersect(in, marks, whole, out_len);
    if (refused != ARCS_OK)
        return refused;
    out[0] = whole[0];
    for (int i = 1; i < 6; i++)
        check(whole[i] == 0, "a closed form counts %g in place %d", whole[i], i);
    for (int i = 0; i < 8; i++)
        out[1 + i] = whole[6 + i];
    return refused;
}

static uint32_t known_closed(const double *in, uint32_t marks, double *out)
{
    double whole[MOST_OUT];
    fill(whole, MOST_OUT);
    known_intersect(in, marks, whole);
    out[0] = whole[0];
    for (int i = 0; i < 8; i++)
        out[1 + i] = whole[6 + i];
    return 0;
}

static const struct call two_segments = {"arcs_intersect of two segments", "CCCCCCCC", 5, 0, 0, 1e-9, ask_closed, known_closed};
static const struct call segment_and_arc = {"arcs_intersect of a segment and an arc", "CCCCCCCCAAA", 9, 0x70, 0x70, 1e-9, ask_closed, known_closed};
static const struct call arc_and_segment = {"arcs_intersect of an arc and a segment", "CCCCAAACCCC", 9, 0x07, 0x07, 1e-9, ask_closed, known_closed};
static const struct call two_arcs = {"arcs_intersect of two arcs", "CCCCAAACCCCAAA", 22, 0x77, 0x77, 1e-9, ask_intersect, known_intersect};

static const struct drawing segments[] = {
    {PAIR(SEGMENT, SEGMENT, 0u), {-4.0, 1.0, 11.0, 3.0, 2.0, 9.5, 5.0, -6.0}},
    {PAIR(SEGMENT, SEGMENT, 3u), {-4.0, 1.0, 2.5, 3.0, 4.75, 9.5, 5.0, -6.0}},
};
static const struct drawing cut_first[] = {
    {PAIR(SEGMENT, ELLIPSE | CLOSED, 0u), {CUT, BOWL}}, {PAIR(SEGMENT, ELLIPSE | CCW, 1u), {CUT, BOWL}}, {PAIR(SEGMENT, CCW, 0u), {CUT, BOWL}},
    {PAIR(SEGMENT, CLOSED, 0u), {CUT, BOWL}}, {PAIR(SEGMENT, ELLIPSE, 0u), {CUT, BOWL_BACK}},
};
static const struct drawing cut_second[] = {
    {PAIR(ELLIPSE | CLOSED, SEGMENT, 0u), {BOWL, CUT}}, {PAIR(ELLIPSE | CCW, SEGMENT, 1u), {BOWL, CUT}}, {PAIR(CCW, SEGMENT, 0u), {BOWL, CUT}},
    {PAIR(CLOSED, SEGMENT, 0u), {BOWL, CUT}}, {PAIR(ELLIPSE, SEGMENT, 0u), {BOWL_BACK, CUT}},
};
static const struct drawing arcs[] = {
    {PAIR(ELLIPSE | CCW, ELLIPSE | CCW, 1u), {TURNS, PART}},
    {PAIR(ELLIPSE | CLOSED, ELLIPSE | CLOSED, 0u), {TURNS, PART}},
    {PAIR(ELLIPSE, ELLIPSE, 2u), {TURNS_BACK, PART_BACK}},
    {PAIR(ELLIPSE, CLOSED, 3u), {TURNS_BACK, PART}},
    {PAIR(ELLIPSE, CCW, 0u), {TURNS_BACK, PART}},
    {PAIR(CCW, ELLIPSE, 0u), {TURNS, PART_BACK}},
    {PAIR(CLOSED, ELLIPSE, 1u), {TURNS, PART_BACK}},
    {PAIR(CLOSED | CCW, CCW, 3u), {ROUND, OTHER}},
    {PAIR(CCW, CLOSED, 0u), {ROUND, OTHER}},
    {PAIR(CLOSED, CLOSED, 0u), {ROUND, OTHER}},
    {PAIR(0u, CLOSED, 0u), {ROUND, OTHER}},
};

/* In arcs_intersect_arcs the mark of a segment, and any that has no name, is not read. */
static void try_unread_marks(void)
{
    static struct lent plain, marked;
    const double a[7] = {ROUND}, b[7] = {OTHER};
    plain = *fresh();
    marked = plain;
    check(arcs_intersect_arcs(a, 7, CLOSED, b, 7, CLOSED, 0, plain.room, ROOM, plain.counts, COUNTS) == ARCS_OK, "two circles are refused");
    check(arcs_intersect_arcs(a, 7, CLOSED | SEGMENT, b, 7, CLOSED | ~15u, 0, marked.room, ROOM, marked.counts, COUNTS) == ARCS_OK, "a mark is refused");
    check(plain.counts[0] == 2 && marked.counts[0] == 2, "a mark without a name changes the count");
    for (int i = 0; i < 8; i++)
        check(plain.room[i] == marked.room[i], "a mark without a name changes number %d", i);
}

void test_curves(void)
{
    group("two curves of either kind");
    TRY_ANSWERS(&two_segments, segments);
    TRY_ANSWERS(&segment_and_arc, cut_first);
    TRY_ANSWERS(&arc_and_segment, cut_second);
    TRY_ANSWERS(&two_arcs, arcs);
    try_unread_marks();
}
