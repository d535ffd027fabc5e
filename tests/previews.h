/* The tests of both previews. */
#ifndef PREVIEWS_H
#define PREVIEWS_H

void test_previews(void);
void test_worked(void);
void test_stored(void);
void test_all_rounds(void);
void test_no_trace(void);

#endif
