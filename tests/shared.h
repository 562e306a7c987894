/* What the tests that play days from C share: what was got is held to what must be, and what sites weigh. */
#ifndef SHARED_H
#define SHARED_H

#include "../include/quorum_read.h"

/* The test, and the day that is played, as they are named if there is a difference. */
extern const char *const test_name;
extern char current[200];

/* What was got, and what it must be. The first difference ends the program. */
void expect(const char *what, uint64_t got, uint64_t wanted);
void expect_same(const char *what, const uint8_t *got, const uint8_t *wanted, size_t length);

/* What n sites weigh together, and the heaviest of them. */
unsigned all_weight(unsigned n, const uint8_t *weights);
unsigned heaviest(unsigned n, const uint8_t *weights);

#endif
