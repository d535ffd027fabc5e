/* The tests of the validity of a configuration, by both entries. */
#ifndef VALIDITY_H
#define VALIDITY_H

void test_validity(void);
void test_short_rounds(void);
void test_validity_of_runs(void);

#endif
