#include <stdio.h>
#include <stdlib.h>

#include "shared.h"

char current[200];

void expect(const char *what, uint64_t got, uint64_t wanted)
{
    if (got != wanted) {
        printf("%s: %s: %s %llu, not %llu\n", test_name, current, what, (unsigned long long)got, (unsigned long long)wanted);
        exit(1);
    }
}

void expect_same(const char *what, const uint8_t *got, const uint8_t *wanted, size_t length)
{
    size_t at = 0;
    while (at < length && got[at] == wanted[at])
        at++;
    expect(what, at, length);
}

unsigned all_weight(unsigned n, const uint8_t *weights)
{
    unsigned site, sum = 0;
    for (site = 0; site < n; site++)
        sum += weights[site];
    return sum;
}

unsigned heaviest(unsigned n, const uint8_t *weights)
{
    unsigned site, most = 0;
    for (site = 0; site < n; site++)
        if (weights[site] > most)
            most = weights[site];
    return most;
}
