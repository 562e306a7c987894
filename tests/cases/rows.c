/* Numbers 8 to 12 and 15 of a DELIVER: the row in the store. */
#include "cases.h"

/* Row 0 is made of its kind, its sender, the low byte of its destinations and one code; it is delivered to a site. */
struct delivery {
    const char *name;
    struct change changes[CHANGES];
    uint8_t kind, sender, destinations;
    unsigned code_at;
    uint8_t code, site;
    unsigned answer;
};

static const struct delivery deliveries[] = {
    {"10 kind 0", {ROWS(1)}, 0, 0, 6, 0, 1, 1, 10},
    {"10 kind 1 passes", {ROWS(1)}, 1, 0, 6, 0, 1, 1, 0},
    {"10 kind 2 passes", {ROWS(1)}, 2, 0, 6, 0, 1, 1, 0},
    {"10 kind 3 passes", {ROWS(1)}, 3, 0, 6, 0, 1, 1, 0},
    {"10 kind 4 passes", {ROWS(1)}, 4, 0, 6, 0, 1, 1, 0},
    {"10 kind 5 passes", {ROWS(1)}, 5, 0, 6, 0, 1, 1, 0},
    {"10 kind 6 passes", {ROWS(1)}, 6, 0, 6, 0, 1, 1, 0},
    {"10 kind 7 passes", {ROWS(1)}, 7, 0, 6, 0, 1, 1, 0},
    {"10 kind 8", {ROWS(1)}, 8, 0, 6, 0, 1, 1, 10},
    {"10 kind 255", {ROWS(1)}, 255, 0, 6, 0, 1, 1, 10},
    {"10 sender 3 of 3", {ROWS(1)}, 1, 3, 6, 0, 1, 1, 10},
    {"10 sender 2 of 3 passes", {ROWS(1)}, 1, 2, 6, 0, 1, 1, 0},
    {"10 sender 255", {ROWS(1)}, 1, 255, 6, 0, 1, 1, 10},
    {"10 code 6 at site 0", {ROWS(1)}, 1, 0, 6, 0, 6, 1, 10},
    {"10 code 6 at n - 1", {ROWS(1)}, 1, 0, 6, 2, 6, 1, 10},
    {"10 code 5 at n - 1 passes", {ROWS(1)}, 1, 0, 6, 2, 5, 1, 0},
    {"10 code 6 at n passes", {ROWS(1)}, 1, 0, 6, 3, 6, 1, 0},
    {"10 code 255 at 15 passes", {ROWS(1)}, 1, 0, 6, 15, 255, 1, 0},
    {"11 site 0 is no destination", {ROWS(1)}, 1, 0, 6, 0, 1, 0, 11},
    {"11 site 1 is a destination", {ROWS(1)}, 1, 0, 2, 0, 1, 1, 0},
    {"11 site 2 is no destination", {ROWS(1)}, 1, 0, 2, 0, 1, 2, 11},
    {"11 no destination at all", {ROWS(1)}, 1, 0, 0, 0, 1, 1, 11},
    {"12 a destination that is down", {DOWN(1), ROWS(1)}, 1, 0, 6, 0, 1, 1, 12},
    {"12 a destination that is up passes", {DOWN(1), ROWS(1)}, 1, 0, 6, 0, 1, 2, 0},
    {"9 row 0 of no rows", {ROWS(0)}, 1, 0, 6, 0, 1, 1, 9},
    {"9 row 0 of one passes", {ROWS(1)}, 1, 0, 6, 0, 1, 1, 0},
    {"8 DELIVER to 3 of 3", {ROWS(1)}, 1, 0, 255, 0, 1, 3, 8},
    {"8 DELIVER to 2 of 3 passes", {ROWS(1)}, 1, 0, 6, 0, 1, 2, 0},
    {"15 a reply with 1,023 rows passes", {ROWS(1023)}, 1, 0, 6, 0, 1, 1, 0},
    {"15 a reply with 1,024 rows", {ROWS(1024)}, 1, 0, 6, 0, 1, 1, 15},
    {"15 a vote heard with 1,024 rows passes", {ROWS(1024)}, 2, 0, 6, 0, 1, 1, 0},
    {"8 before 9", {ROWS(0)}, 1, 0, 6, 0, 1, 3, 8},
    {"9 before 10", {ROWS(0)}, 0, 0, 6, 0, 1, 1, 9},
    {"10 before 11", {ROWS(1)}, 0, 0, 6, 0, 1, 0, 10},
    {"11 before 12", {DOWN(1), ROWS(1)}, 1, 0, 4, 0, 1, 1, 11},
    {"12 before 15 at a DELIVER", {DOWN(1), ROWS(1024)}, 1, 0, 6, 0, 1, 1, 12},
};

static void deliver(const struct delivery *one)
{
    const uint8_t list[] = {QC_DELIVER, 0, 0, one->site};
    const struct command command = {list, sizeof list, 0, one->answer, sizeof list};
    uint8_t row[QC_ROW_BYTES] = {one->kind, one->sender, one->destinations};
    row[4 + one->code_at] = one->code;
    begin(one->name);
    expect_command(&command, one->changes, row, QC_STORE_BYTES);
}

/* Row numbers of both bytes. A row of zeros that is there is 10, for its kind. */
struct numbered {
    const char *name;
    struct change changes[CHANGES];
    uint8_t low, high;
    unsigned answer;
};

static const struct numbered numbers[] = {
    {"9 row 1 of one", {ROWS(1)}, 1, 0, 9},
    {"9 row 1 of two, to 10", {ROWS(2)}, 1, 0, 10},
    {"9 row 256 of 256", {ROWS(256)}, 0, 1, 9},
    {"9 row 256 of 257, to 10", {ROWS(257)}, 0, 1, 10},
    {"9 row 1,023 of 1,024, to 10", {ROWS(1024)}, 255, 3, 10},
    {"9 row 1,024 of 1,024", {ROWS(1024)}, 0, 4, 9},
    {"9 row 65,535", {ROWS(1024)}, 255, 255, 9},
};

static void number(const struct numbered *one)
{
    static const uint8_t zeros[QC_ROW_BYTES];
    const uint8_t list[] = {QC_DELIVER, one->low, one->high, 1};
    const struct command command = {list, sizeof list, 0, one->answer, 0};
    begin(one->name);
    expect_command(&command, one->changes, zeros, QC_STORE_BYTES);
}

void row_cases(void)
{
    size_t i;
    for (i = 0; i < COUNT(deliveries); i++)
        deliver(&deliveries[i]);
    for (i = 0; i < COUNT(numbers); i++)
        number(&numbers[i]);
}
