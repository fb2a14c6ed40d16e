/* The groups of tests. */
#ifndef TESTS_H
#define TESTS_H

void test_header(void);
void test_routines(void);
void test_points(void);
void test_spans(void);
void test_lines(void);
void test_crossings(void);
void test_curves(void);
void test_rooms(void);
void test_shapes(void);

#endif
