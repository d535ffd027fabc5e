/* The tests of texts that are read or refused. */
#ifndef TEXTS_H
#define TEXTS_H

void test_damaged(void);
void test_fields(void);
void test_values(void);

#endif
