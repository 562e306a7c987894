/* What the checks of the readers share. */
#ifndef READERS_H
#define READERS_H

#include "../include/quorum_read.h"

/* Where a check stands: its file and line. */
#define LINE_TEXT(line) #line
#define AT_LINE(line) __FILE__ ":" LINE_TEXT(line)
#define HERE AT_LINE(__LINE__)

/* What was got, and what it must be. The first difference ends the program. */
void check(const char *where, uint64_t got, uint64_t wanted);

void check_text(const char *where, const char *got, const char *wanted);

#define CHECK(got, wanted) check(HERE, (got), (wanted))
#define CHECK_TEXT(got, wanted) check_text(HERE, (got), (wanted))

/* Those of lists as lines, and of lists in the other edition; those of a single site. */
void line_readers(void);
void step_readers(void);

#endif
