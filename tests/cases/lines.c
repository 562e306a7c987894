/* Lists as lines: lists with their texts, both ways, and numbers 2 to 7, 17 and 20. Texts that are refused are in bad_lines.c, and 1 is in
 * long_lines.c. */
#include <string.h>

#include "lines.h"

static const struct pair pairs[] = {
    {"lines of M1", TEXT(FIRST), BYTES(HEADER)},
    {"lines of M2", TEXT(FIRST "start\n"), BYTES(HEADER, 1)},
    {"lines of M3",
     TEXT(FIRST "start\ndeliver 0 1\ndeliver 1 0\ntimeout 0\ndeliver 2 2\ndeliver 3 0\ntimeout 0\n"),
     BYTES(HEADER, 1, 2, 0, 0, 1, 2, 1, 0, 0, 3, 0, 2, 2, 0, 2, 2, 3, 0, 0, 3, 0)},
    {"lines of DELIVER, its row's low byte first", TEXT(FIRST "deliver 258 3\n"), BYTES(HEADER, 2, 2, 1, 3)},
    {"lines of TIMEOUT", TEXT(FIRST "timeout 2\n"), BYTES(HEADER, 3, 2)},
    {"lines of CRASH", TEXT(FIRST "crash 1\n"), BYTES(HEADER, 4, 1)},
    {"lines of RECOVER", TEXT(FIRST "recover 0\n"), BYTES(HEADER, 5, 0)},
    {"lines are not played: 14, 9, 13, 8", TEXT(FIRST "start\nstart\ndeliver 7 0\nrecover 1\ncrash 255\n"),
     BYTES(HEADER, 1, 1, 2, 7, 0, 0, 5, 1, 4, 255)},
    {"lines with rows of every width",
     TEXT(FIRST "deliver 0 0\ndeliver 9 0\ndeliver 10 0\ndeliver 99 0\ndeliver 100 0\ndeliver 255 0\ndeliver 256 0\ndeliver 999 0\n"
                "deliver 1000 0\ndeliver 9999 0\ndeliver 10000 0\ndeliver 65535 0\n"),
     BYTES(HEADER, 2, 0, 0, 0, 2, 9, 0, 0, 2, 10, 0, 0, 2, 99, 0, 0, 2, 100, 0, 0, 2, 255, 0, 0, 2, 0, 1, 0, 2, 231, 3, 0, 2, 232, 3, 0, 2, 15,
           39, 0, 2, 16, 39, 0, 2, 255, 255, 0)},
    {"lines with sites of every width",
     TEXT(FIRST "timeout 9\ntimeout 10\ntimeout 99\ntimeout 100\ntimeout 255\ncrash 10\ncrash 255\nrecover 100\nrecover 255\n"
                "deliver 0 99\ndeliver 0 255\n"),
     BYTES(HEADER, 3, 9, 3, 10, 3, 99, 3, 100, 3, 255, 4, 10, 4, 255, 5, 100, 5, 255, 2, 0, 0, 99, 2, 0, 0, 255)},
    {"3 sites 3 pass", TEXT("sites 3 commit 2 abort 2 willing 0\n"), BYTES(3, 2, 2, 0, 0)},
    {"3 sites 16 pass", TEXT("sites 16 commit 15 abort 15 willing 0\n"), BYTES(16, 15, 15, 0, 0)},
    {"4 n 4, C 2, A 3 pass", TEXT("sites 4 commit 2 abort 3 willing 0\n"), BYTES(4, 2, 3, 0, 0)},
    {"4 n 11, C 10, A 2 pass", TEXT("sites 11 commit 10 abort 2 willing 0\n"), BYTES(11, 10, 2, 0, 0)},
    {"4 n 11, C 2, A 10 pass", TEXT("sites 11 commit 2 abort 10 willing 0\n"), BYTES(11, 2, 10, 0, 0)},
    {"5 willing 4 of three passes", TEXT("sites 3 commit 2 abort 2 willing 4\n"), BYTES(3, 2, 2, 4, 0)},
    {"5 willing 10", TEXT("sites 16 commit 9 abort 8 willing 10\n"), BYTES(16, 9, 8, 10, 0)},
    {"5 willing 255", TEXT("sites 16 commit 9 abort 8 willing 255\n"), BYTES(16, 9, 8, 255, 0)},
    {"5 willing 256", TEXT("sites 16 commit 9 abort 8 willing 256\n"), BYTES(16, 9, 8, 0, 1)},
    {"5 willing 1000", TEXT("sites 16 commit 9 abort 8 willing 1000\n"), BYTES(16, 9, 8, 232, 3)},
    {"19 willing 65535 passes", TEXT("sites 16 commit 9 abort 8 willing 65535\n"), BYTES(16, 9, 8, 255, 255)},
};

static const struct line_case lists[] = {
    {"2 a list of one byte", BYTES(3), 2, 0},
    {"2 a list of four bytes", BYTES(3, 2, 2, 7), 2, 0},
    {"2 before 3", BYTES(2, 2, 2, 8), 2, 0},
    {"3 n of 0 in a list", BYTES(0, 2, 2, 0, 0), 3, 0},
    {"3 n of 2 in a list", BYTES(2, 2, 2, 0, 0), 3, 0},
    {"3 n of 17 in a list", BYTES(17, 15, 15, 0, 0), 3, 0},
    {"3 the first byte is n: 130", BYTES(SECOND(3, 2, 2, 7), 1, 1, 1, 1), 3, 0},
    {"3 the first byte is n: 130 of five", BYTES(130, 2, 2, 7, 0), 3, 0},
    {"2 four bytes, the first 130", BYTES(130, 3, 2, 0), 2, 0},
    {"3 the first byte is n: 131", BYTES(131, 3, 2, 0, 2, 0, 7, 0, 1, 1, 1, 1), 3, 0},
    {"3 130, and a weight of 0", BYTES(SECOND(3, 2, 2, 7), 1, 0, 1, 1), 3, 0},
    {"4 C + A of n in a list", BYTES(4, 2, 2, 0, 0), 4, 0},
    {"4 C equal to n in a list", BYTES(4, 4, 3, 0, 0), 4, 0},
    {"4 A equal to n in a list", BYTES(4, 3, 4, 0, 0), 4, 0},
    {"5 willing bit at n in a list", BYTES(3, 2, 2, 8, 0), 5, 0},
    {"5 willing bit 8 of eight in a list", BYTES(8, 5, 5, 0, 1), 5, 0},
    {"3 before 4 and 5 of a list", BYTES(2, 2, 2, 8, 0), 3, 0},
    {"4 before 5 of a list", BYTES(3, 3, 2, 8, 0), 4, 0},
    {"5 before 6 of a list", BYTES(3, 2, 2, 8, 0, 6), 5, 0},
    {"6 command 0 to be written", BYTES(HEADER, 0), 6, 5},
    {"6 command 6 to be written", BYTES(HEADER, 6), 6, 5},
    {"6 command 255 to be written", BYTES(HEADER, 255, 0, 0, 0), 6, 5},
    {"6 after other commands", BYTES(HEADER, 1, 2, 0, 0, 1, 3, 0, 6, 1), 6, 12},
    {"6 after a command that would be refused", BYTES(HEADER, 5, 255, 0), 6, 7},
    {"7 deliver, no operand byte", BYTES(HEADER, 2), 7, 5},
    {"7 deliver, one operand byte", BYTES(HEADER, 2, 0), 7, 5},
    {"7 deliver, two operand bytes", BYTES(HEADER, 2, 0, 0), 7, 5},
    {"7 timeout cut", BYTES(HEADER, 3), 7, 5},
    {"7 crash cut", BYTES(HEADER, 4), 7, 5},
    {"7 recover cut", BYTES(HEADER, 5), 7, 5},
    {"7 after other commands", BYTES(HEADER, 1, 4, 1, 2, 6, 0), 7, 8},
    {"6 before a later 7", BYTES(HEADER, 1, 6, 3), 6, 6},
};

const struct bad_result bad_results[BAD_RESULTS] = {
    {"17 a result of no bytes", 0}, {"17 a result of 8 bytes", 8}, {"17 a result of 15 bytes", 15}, {"17 a result of 17 bytes", 17},
};

static struct lent now, wanted;

struct lent *lend(void)
{
    memset(&now, 0xee, sizeof now);
    memset(&wanted, 0xee, sizeof wanted);
    return &now;
}

static void put_number64(uint8_t *bytes, uint64_t number)
{
    unsigned byte;
    for (byte = 0; byte < 8; byte++)
        bytes[byte] = (uint8_t)(number >> 8 * byte);
}

void expect_left(unsigned got, unsigned answer, uint64_t place, const uint8_t *output, size_t output_length)
{
    memcpy(wanted.buffer, output, output_length);
    put_number64(wanted.result, output_length);
    put_number64(wanted.result + 8, place);
    expect("number", got, answer);
    expect("length", qc_lines_length(now.result), output_length);
    expect("place", qc_lines_place(now.result), place);
    expect("other bytes in a buffer", memcmp(&now, &wanted, sizeof now) != 0, 0);
}

void expect_untouched(void)
{
    expect("buffers changed", memcmp(&now, &wanted, sizeof now) != 0, 0);
}

/* Calls with a buffer of so much room. */
static void expect_lines(lines_call *call, size_t room, const struct line_case *given, const uint8_t *output, size_t output_length)
{
    struct lent *lent = lend();
    unsigned got = call(given->input, given->length, lent->buffer, room, lent->result, QC_LINES_RESULT_BYTES);
    expect_left(got, given->answer, given->place, output, output_length);
}

void refuse(lines_call *call, const struct line_case *one)
{
    begin(one->name);
    expect_lines(call, sizeof now.buffer, one, one->input, 0);
    expect_lines(call, 0, one, one->input, 0);
}

void refuse_all(lines_call *call, const struct line_case *table, size_t count)
{
    size_t i;
    for (i = 0; i < count; i++)
        refuse(call, &table[i]);
}

void accept(lines_call *call, const char *name, const uint8_t *input, size_t length, const uint8_t *output, size_t output_length)
{
    const struct line_case accepted = {name, input, length, QC_ACCEPTED, length};
    const struct line_case refused = {name, input, length, QC_ROOM_SHORT, 0};
    begin(name);
    expect_lines(call, sizeof now.buffer, &accepted, output, output_length);
    expect_lines(call, output_length, &accepted, output, output_length);
    expect_lines(call, output_length - 1, &refused, output, 0);
    expect_lines(call, 0, &refused, output, 0);
}

void both_ways(const struct pair *one)
{
    accept(qc_write_lines, one->name, one->list, one->list_length, one->text, one->text_length);
    accept(qc_read_lines, one->name, one->text, one->text_length, one->list, one->list_length);
}

void refuse_results(lines_call *call, const uint8_t *input, size_t length)
{
    size_t i;
    for (i = 0; i < BAD_RESULTS; i++) {
        struct lent *lent = lend();
        begin(bad_results[i].name);
        expect("number", call(input, length, lent->buffer, sizeof lent->buffer, lent->result, bad_results[i].length), QC_BAD_WORLD);
        expect("number with no room", call(input, length, lent->buffer, 0, lent->result, bad_results[i].length), QC_BAD_WORLD);
        expect_untouched();
    }
}

void line_cases(void)
{
    static const uint8_t header[] = {HEADER};
    static const uint8_t none[1];
    size_t i;
    for (i = 0; i < COUNT(pairs); i++)
        both_ways(&pairs[i]);
    refuse_all(qc_write_lines, lists, COUNT(lists));
    refuse_results(qc_write_lines, header, sizeof header);
    refuse_results(qc_write_lines, none, 0);
    refuse_results(qc_read_lines, TEXT(FIRST));
    refuse_results(qc_read_lines, none, 0);
}
