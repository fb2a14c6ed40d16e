#include "crossings.h"
#include "check.h"

#define UNCOUNTED UINT64_C(987654321)

struct lent *fresh(void)
{
    static struct lent l;
    fill(l.room, ROOM);
    for (size_t i = 0; i < COUNTS; i++)
        l.counts[i] = UNCOUNTED;
    return &l;
}

int unwritten(const struct lent *l, size_t room_from, size_t counts_from)
{
    for (size_t i = counts_from; i < COUNTS; i++)
        if (l->counts[i] != UNCOUNTED)
            return 0;
    return untouched(l->room + room_from, ROOM - room_from);
}

uint32_t taken_over(const char *name, uint32_t refused, const struct lent *l, size_t counts, double *out)
{
    if (refused != ARCS_OK) {
        check(unwritten(l, 0, 0), "%s: refused with %u and wrote", name, refused);
        return refused;
    }
    uint64_t hits = l->counts[0];
    if (!check(hits <= KEPT, "%s: counts more hits than two curves have", name))
        return refused;
    check(unwritten(l, hits * ARCS_HIT_NUMBERS, counts), "%s: wrote past its %d hits or %zu counts", name, (int)hits, counts);
    for (size_t i = 0; i < counts; i++)
        out[i] = (double)l->counts[i];
    for (size_t i = 0; i < hits * ARCS_HIT_NUMBERS; i++)
        out[counts + i] = l->room[i];
    return refused;
}

uint32_t laid_out(struct found f, size_t counts, double *out)
{
    const uint64_t counted[MOST_COUNTS] = {f.hits, f.brackets, f.outside_a, f.outside_b, f.doubles, f.evaluations};
    for (size_t i = 0; i < counts; i++)
        out[i] = (double)counted[i];
    for (size_t i = 0; i < f.hits && i < KEPT; i++) {
        double *place = out + counts + i * ARCS_HIT_NUMBERS;
        place[0] = f.hit[i].t_a;
        place[1] = f.hit[i].t_b;
        place[2] = f.hit[i].pos.x;
        place[3] = f.hit[i].pos.y;
    }
    return 0;
}
