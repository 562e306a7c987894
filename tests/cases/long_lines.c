/* Lists and texts of the greatest length and above it: 1, and what comes before and after it. */
#include <string.h>

#include "lines.h"

/* The longest line of a header that is accepted, 42 bytes. */
#define LONGEST 16, 15, 15, 255, 255
#define LONGEST_LINE "sites 16 commit 15 abort 15 willing 65535\n"

/* So many START after a header of 42 bytes make a text of a bit more than a megabyte. */
#define MEGABYTE 174760

static uint8_t text[1048576 + 64];
static uint8_t list[1048576 + 64];

static size_t add(uint8_t *bytes, size_t length, const void *more, size_t count)
{
    memcpy(bytes + length, more, count);
    return length + count;
}

/* A first line, so many START, a last line. */
static size_t make_text(const char *first, size_t starts, const char *last)
{
    size_t length = add(text, 0, first, strlen(first));
    while (starts-- > 0)
        length = add(text, length, "start\n", 6);
    return add(text, length, last, strlen(last));
}

/* The same of a list: a header, so many START, a last command. */
static size_t make_list(const uint8_t *header, size_t starts, const uint8_t *last, size_t last_length)
{
    size_t length = add(list, 0, header, QC_HEADER_BYTES);
    memset(list + length, QC_START, starts);
    return add(list, length + starts, last, last_length);
}

struct long_pair {
    const char *name, *last_line;
    size_t starts;
    const uint8_t *last;
    size_t last_length, text_length;
};

static const struct long_pair longest[] = {
    {"1 the longest text: 32,763 START", "start\n", 32762, BYTES(1), 196620},
    {"1 32,768 bytes, a TIMEOUT last", "timeout 255\n", 32761, BYTES(3, 255), 196620},
    {"1 32,768 bytes, a DELIVER last", "deliver 65535 255\n", 32759, BYTES(2, 255, 255, 255), 196614},
};

static void pass(const struct long_pair *one)
{
    static const uint8_t header[] = {LONGEST};
    const size_t text_length = make_text(LONGEST_LINE, one->starts, one->last_line);
    const size_t list_length = make_list(header, one->starts, one->last, one->last_length);
    const struct pair pair = {one->name, text, text_length, list, list_length};
    both_ways(&pair);
    expect("text's length", text_length, one->text_length);
    expect("list's length", list_length, QC_LIST_BYTES);
}

static void pass_all(void)
{
    size_t i;
    for (i = 0; i < COUNT(longest); i++)
        pass(&longest[i]);
}

struct long_text {
    const char *name, *first;
    size_t starts;
    const char *last;
    unsigned answer;
    uint64_t place;
};

static const struct long_text texts[] = {
    {"1 a text of 32,769 list bytes", LONGEST_LINE, 32764, "", 1, 0},
    {"1 a text of 32,767 list bytes, and a DELIVER", LONGEST_LINE, 32762, "deliver 0 0\n", 1, 0},
    {"1 a text shorter than the longest", "sites 3 commit 2 abort 2 willing 7\n", 32764, "", 1, 0},
    {"1 a megabyte of lines", LONGEST_LINE, MEGABYTE, "", 1, 0},
    {"1 before 3 of a text", "sites 2 commit 2 abort 2 willing 7\n", 32764, "", 1, 0},
    {"1 before 4 of a text", "sites 4 commit 2 abort 2 willing 0\n", 32764, "", 1, 0},
    {"1 before 5 of a text", "sites 3 commit 2 abort 2 willing 8\n", 32764, "", 1, 0},
    {"3 a text longer than the longest, 32,768 list bytes", "sites 255 commit 255 abort 255 willing 65535\n", 32763, "", 3, 0},
    {"19 before 1", LONGEST_LINE, 32764, "start", 19, 196626},
    {"19 before 1, an empty line last", LONGEST_LINE, 32764, "\n", 19, 196626},
    {"19 after a megabyte of lines", LONGEST_LINE, MEGABYTE, "stop\n", 19, 1048602},
};

static void refuse_texts(void)
{
    size_t i;
    for (i = 0; i < COUNT(texts); i++) {
        const struct long_text *one = &texts[i];
        const struct line_case given = {one->name, text, make_text(one->first, one->starts, one->last), one->answer, one->place};
        refuse(qc_read_lines, &given);
    }
}

struct long_list {
    const char *name;
    uint8_t header[QC_HEADER_BYTES];
    size_t starts;
    uint8_t last;
    unsigned answer;
    uint64_t place;
};

static const struct long_list lists[] = {
    {"1 a list of 32,769 bytes", {LONGEST}, 32763, QC_START, 1, 0},
    {"1 a list of a megabyte", {LONGEST}, 1048570, QC_START, 1, 0},
    {"1 before 3 of a list", {2, 2, 2, 7, 0}, 32763, QC_START, 1, 0},
    {"1 before 6 of a list", {LONGEST}, 32763, 6, 1, 0},
    {"6 the last byte of the longest list", {LONGEST}, 32762, 6, 6, 32767},
    {"7 the last byte of the longest list", {LONGEST}, 32762, QC_TIMEOUT, 7, 32767},
};

static void refuse_lists(void)
{
    size_t i;
    for (i = 0; i < COUNT(lists); i++) {
        const struct long_list *one = &lists[i];
        const struct line_case given = {one->name, list, make_list(one->header, one->starts, &one->last, 1), one->answer, one->place};
        refuse(qc_write_lines, &given);
    }
}

void long_line_cases(void)
{
    const struct line_case no_list = {"2 a list of no bytes", list, 0, 2, 0};
    pass_all();
    refuse_texts();
    refuse_lists();
    refuse(qc_write_lines, &no_list);
}
