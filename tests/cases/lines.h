/* What the cases of lists as lines share, and those of a quiet day and of a list turned into the other edition. */
#ifndef LINES_H
#define LINES_H

#include "cases.h"

/* Three sites, C = A = 2, all willing; its line has 35 bytes. */
#define HEADER 3, 2, 2, 7, 0
#define FIRST "sites 3 commit 2 abort 2 willing 7\n"

/* A text written in a table, and its length. */
#define TEXT(text) (const uint8_t *)(text), sizeof(text) - 1

/* The buffers lent to a call that writes a list or its lines. */
struct lent {
    uint8_t buffer[QC_TEXT_BYTES + 1], result[QC_LINES_RESULT_BYTES + 1];
};

/* Them before a call, every byte 0xee. */
struct lent *lend(void);

/* After it: the number it gave, the one it must give, and every byte. A refused call has an output of length 0. */
void expect_left(unsigned got, unsigned answer, uint64_t place, const uint8_t *output, size_t output_length);
void expect_untouched(void);

/* A length that a result must not have: 17, before everything else. */
struct bad_result {
    const char *name;
    size_t length;
};

#define BAD_RESULTS 4
extern const struct bad_result bad_results[BAD_RESULTS];

/* qc_write_lines, qc_read_lines or qc_convert. */
typedef uint32_t lines_call(const uint8_t *, size_t, uint8_t *, size_t, uint8_t *, size_t);

/* A list and its text: each call must make one of the other. */
struct pair {
    const char *name;
    const uint8_t *text;
    size_t text_length;
    const uint8_t *list;
    size_t list_length;
};

void both_ways(const struct pair *one);

/* A list or text that is handed in, the answer, and the place: its length where it is accepted. */
struct line_case {
    const char *name;
    const uint8_t *input;
    size_t length;
    unsigned answer;
    uint64_t place;
};

/* Accepted with much room and with just enough; 20 with a byte less and with none. */
void accept(lines_call *call, const char *name, const uint8_t *input, size_t length, const uint8_t *output, size_t output_length);

/* Refused alike with much room and with none, since 20 comes last. */
void refuse(lines_call *call, const struct line_case *one);
void refuse_all(lines_call *call, const struct line_case *table, size_t count);

/* A result of another length is 17 before everything else, whatever is handed in, and nothing is touched. */
void refuse_results(lines_call *call, const uint8_t *input, size_t length);

#endif
