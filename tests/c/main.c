/* Every call of arcs.h, on drawings in which no two numbers are alike. */
#include "check.h"
#include "tests.h"

int main(void)
{
    test_header();
    test_routines();
    test_points();
    test_spans();
    test_lines();
    test_crossings();
    test_curves();
    test_rooms();
    test_shapes();
    return ended();
}
