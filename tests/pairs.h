/* The tests of which of two archive files supersedes. */
#ifndef PAIRS_H
#define PAIRS_H

void test_pairs(void);

#endif
