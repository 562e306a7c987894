/* Lists as lines, and lists in the other edition: what the calls and the readers of their result give for M3, both ways, and what these readers give
 * for bytes. */
#include <string.h>

#include "readers.h"

static uint8_t result[QC_LINES_RESULT_BYTES];

/* What the last of these calls gave. */
static void check_lines(const char *where, uint32_t answer, uint32_t wanted, unsigned length, unsigned place)
{
    check(where, answer, wanted);
    check(where, qc_lines_length(result), length);
    check(where, qc_lines_place(result), place);
}

#define CHECK_LINES(answer, wanted, length, place) check_lines(HERE, answer, wanted, length, place)

static const uint8_t m3[] = {3, 2, 2, 7, 0, 1, 2, 0, 0, 1, 2, 1, 0, 0, 3, 0, 2, 2, 0, 2, 2, 3, 0, 0, 3, 0};

/* M3 as lines, and back. They begin at 0, 35, 41, 53, 65, 75, 87 and 99. */
static void both_ways(void)
{
    static const char wanted[] = "sites 3 commit 2 abort 2 willing 7\nstart\ndeliver 0 1\ndeliver 1 0\ntimeout 0\ndeliver 2 2\ndeliver 3 0\n"
                                 "timeout 0\n";
    static uint8_t typed[QC_TEXT_BYTES], list[QC_LIST_BYTES];
    CHECK_LINES(qc_write_lines(m3, sizeof m3, typed, sizeof typed, result, sizeof result), QC_ACCEPTED, 109, 26);
    CHECK((uint64_t)(memcmp(typed, wanted, 109) == 0), 1);
    CHECK_LINES(qc_read_lines(typed, 109, list, sizeof list, result, sizeof result), QC_ACCEPTED, 26, 109);
    CHECK((uint64_t)(memcmp(list, m3, sizeof m3) == 0), 1);
    CHECK_LINES(qc_read_lines(typed, 108, list, sizeof list, result, sizeof result), QC_BAD_LINE, 0, 99);
    CHECK_LINES(qc_read_lines(typed, 109, list, 25, result, sizeof result), QC_ROOM_SHORT, 0, 0);
    CHECK_LINES(qc_write_lines(m3, 25, typed, sizeof typed, result, sizeof result), QC_CUT_SHORT, 0, 24);
    CHECK_LINES(qc_write_lines(m3, sizeof m3, typed, 108, result, sizeof result), QC_ROOM_SHORT, 0, 0);
    CHECK(qc_write_lines(m3, sizeof m3, typed, sizeof typed, result, QC_RESULT_BYTES), QC_BAD_WORLD);
    CHECK(qc_read_lines(typed, 109, list, sizeof list, result, QC_RESULT_BYTES), QC_BAD_WORLD);
}

/* M3 in the second edition, and back; its header is six bytes longer. A list with a weight of 2 stays. */
static void both_editions(void)
{
    static const uint8_t wanted[] = {130, 3, 2, 0, 2, 0, 7, 0, 1, 1, 1, 1, 2, 0, 0, 1, 2, 1, 0, 0, 3, 0, 2, 2, 0, 2, 2, 3, 0, 0, 3, 0};
    static const uint8_t heavy[] = {130, 4, 3, 0, 3, 0, 15, 0, 1, 1, 2, 1};
    static uint8_t second[QC_LIST_BYTES], list[QC_LIST_BYTES];
    CHECK_LINES(qc_convert(m3, sizeof m3, second, sizeof second, result, sizeof result), QC_ACCEPTED, 32, 26);
    CHECK((uint64_t)(memcmp(second, wanted, sizeof wanted) == 0), 1);
    CHECK_LINES(qc_convert(second, 32, list, sizeof list, result, sizeof result), QC_ACCEPTED, 26, 32);
    CHECK((uint64_t)(memcmp(list, m3, sizeof m3) == 0), 1);
    CHECK_LINES(qc_convert(m3, 4, second, sizeof second, result, sizeof result), QC_LIST_SHORT, 0, 0);
    CHECK_LINES(qc_convert(wanted, 10, list, sizeof list, result, sizeof result), QC_LIST_SHORT, 0, 0);
    CHECK_LINES(qc_convert(heavy, sizeof heavy, list, sizeof list, result, sizeof result), QC_UNEVEN_WEIGHT, 0, 0);
    CHECK_LINES(qc_convert(m3, sizeof m3, second, 31, result, sizeof result), QC_ROOM_SHORT, 0, 0);
    CHECK_LINES(qc_convert(wanted, sizeof wanted, list, 25, result, sizeof result), QC_ROOM_SHORT, 0, 0);
    CHECK(qc_convert(m3, sizeof m3, second, sizeof second, result, QC_RESULT_BYTES), QC_BAD_WORLD);
}

static void numbers(void)
{
    static const uint8_t bytes[] = {1, 2, 3, 4, 5, 6, 7, 0xf8, 9, 10, 11, 12, 13, 14, 15, 0xf0};
    CHECK(qc_lines_length(bytes), 0xf807060504030201u);
    CHECK(qc_lines_place(bytes), 0xf00f0e0d0c0b0a09u);
    CHECK(QC_TEXT_BYTES, strlen("sites 16 commit 15 abort 15 willing 65535\n") + strlen("start\n") * (QC_LIST_BYTES - QC_HEADER_BYTES));
}

void line_readers(void)
{
    both_ways();
    both_editions();
    numbers();
}
