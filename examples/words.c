#include <ctype.h>
#include <errno.h>
#include <stdio.h>
#include <stdlib.h>
#include <string.h>

#include "words.h"

void bad(const char *word)
{
    fprintf(stderr, "%s: not understood: %s\n%s", program, word, usage);
    exit(2);
}

uint64_t number(const char *word, int base)
{
    char *end;
    unsigned long long n;

    if (!isxdigit((unsigned char)word[0]))
        bad(word);
    errno = 0;
    n = strtoull(word, &end, base);
    if (*end != '\0' || errno != 0)
        bad(word);
    return n;
}

double loss_rate(const char *word)
{
    uint64_t bits;
    double x;

    if (strlen(word) != 16 || strspn(word, "0123456789abcdef") != 16)
        bad(word);
    bits = number(word, 16);
    memcpy(&x, &bits, sizeof x);
    return x;
}
