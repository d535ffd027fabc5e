/* What the examples share: how they read the words of their command line. */
#ifndef WORDS_H
#define WORDS_H

#include <stdint.h>

/* Each program's name, and the line that says how it is used. */
extern const char program[], usage[];

/* Says that a word is not understood, and how the program is used. Ends with status 2. */
void bad(const char *word);

/* A number below 2^64, of digits in this base alone. */
uint64_t number(const char *word, int base);

/* The double with these 16 hexadecimal digits. */
double loss_rate(const char *word);

#endif
