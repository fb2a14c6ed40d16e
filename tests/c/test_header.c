/* The header's own numbers. */
#include "arcs.h"
#include "check.h"
#include "tests.h"
#include <stdio.h>
#include <string.h>

static void version(void)
{
    char parts[32];
    snprintf(parts, sizeof parts, "%d.%d.%d", ARCS_VERSION_MAJOR, ARCS_VERSION_MINOR, ARCS_VERSION_PATCH);
    check(strcmp(parts, ARCS_VERSION) == 0, "the version is %s and its parts say %s", ARCS_VERSION, parts);
}

/* The numbers that the documents give the refusals: whoever prints one means it. */
static void refusals(void)
{
    const uint32_t named[] = {ARCS_OK,
                              ARCS_REFUSED_NOT_A_NUMBER,
                              ARCS_REFUSED_BEYOND_LIMIT,
                              ARCS_REFUSED_TOO_DEEP,
                              ARCS_REFUSED_ROOM_TOO_SHORT,
                              ARCS_REFUSED_DEGENERATE,
                              ARCS_REFUSED_OUTSIDE_SPAN};
    for (uint32_t i = 0; i < sizeof named / sizeof named[0]; i++)
        check(named[i] == i, "refusal %u has the number %u", i, named[i]);
}

void test_header(void)
{
    group("the header's numbers");
    version();
    refusals();
}
