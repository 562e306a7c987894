/* The worlds that headers of both editions give, byte for byte; a day of the first edition, which plays as before with each site weighing 1, and the
 * same day in the second; and a world of the layout before. */
#include <string.h>

#include "weights.h"

/* A list's world by hand, byte for byte: its head, its weights, then its sites. */
struct fresh_case {
    const char *name;
    const uint8_t *list;
    size_t length;
    uint8_t head[16], weights[QC_SITES];
};

static const struct fresh_case fresh[] = {
    {"weights of a first-edition list of three", BYTES(3, 2, 2, 7, 0), {3, 3, 2, 0, 2, 0, 7}, {1, 1, 1}},
    {"weights of a first-edition list of four", BYTES(4, 2, 3, 9, 0), {3, 4, 2, 0, 3, 0, 9}, {1, 1, 1, 1}},
    {"weights of a first-edition list of fifteen", BYTES(15, 14, 2, 1, 0x40), {3, 15, 14, 0, 2, 0, 1, 0x40}, {FIFTEEN(1)}},
    {"weights of a first-edition list of sixteen", BYTES(16, 9, 8, 0, 0x80), {3, 16, 9, 0, 8, 0, 0, 0x80}, {SIXTEEN(1)}},
    {"weights of 1 in the second edition", BYTES(ONES), {3, 3, 2, 0, 2, 0, 7}, {1, 1, 1}},
    {"weights of 3, 2 and 2", BYTES(SEVEN(4, 4)), {3, 3, 4, 0, 4, 0, 7}, {3, 2, 2}},
    {"weights of 10, 20, 30 and 40", BYTES(HUNDRED(60, 41)), {3, 4, 60, 0, 41, 0, 15}, {10, 20, 30, 40}},
    {"weights of 200", BYTES(SIX_HUNDRED(258, 343)), {3, 3, 2, 1, 87, 1, 7}, {200, 200, 200}},
    {"weights of 1, 255 and 255", BYTES(SECOND(3, 256, 256, 5), 1, 255, 255), {3, 3, 0, 1, 0, 1, 5}, {1, 255, 255}},
    {"sixteen weights of 255", BYTES(MOST(3825, 3825)), {3, 16, 241, 14, 241, 14, 255, 255}, {SIXTEEN(255)}},
    {"fifteen weights from 1 to 15", BYTES(SECOND(15, 105, 16, 0x4001), 1, 2, 3, 4, 5, 6, 7, 8, 9, 10, 11, 12, 13, 14, 15),
     {3, 15, 105, 0, 16, 0, 1, 0x40}, {1, 2, 3, 4, 5, 6, 7, 8, 9, 10, 11, 12, 13, 14, 15}},
};

/* Up, subordinate, an empty log, both vectors 0; from n up all of it 0. */
static void put_fresh(uint8_t *world, const struct fresh_case *one)
{
    unsigned site;
    memset(world, 0, QC_WORLD_BYTES);
    memcpy(world, one->head, sizeof one->head);
    memcpy(world + 16, one->weights, sizeof one->weights);
    for (site = 0; site < one->head[1]; site++)
        world[32 + 40 * site] = 1;
}

static void expect_fresh(const struct fresh_case *one)
{
    const struct list_case list = {one->name, one->list, one->length, 0, 0, (unsigned)one->length};
    uint8_t world[QC_WORLD_BYTES];
    unsigned at;
    expect_list(&list);
    put_fresh(world, one);
    for (at = 0; at < sizeof world; at++)
        expect("byte of the world", listed_world()[at], world[at]);
}

/* M3, in both editions: document 01's day, its world and its five rows, byte for byte. */
#define M3 1, 2, 0, 0, 1, 2, 1, 0, 0, 3, 0, 2, 2, 0, 2, 2, 3, 0, 0, 3, 0

static const struct list_case days[] = {
    {"M3 in the first edition", BYTES(3, 2, 2, 7, 0, M3), 0, 7, 26},
    {"M3 in the second edition", BYTES(ONES, M3), 0, 7, 32},
};

static const uint8_t m3_world[QC_WORLD_BYTES] = {
    [0] = 3,   3, 2, 0, 2, 0, 7, 0, 5, 0, 5, 0, 0, 0, 0, 0,
    [16] = 1,  1, 1,
    [32] = 1,  1, 1, 2, 2, 0, 0, 0, 5, 1, 3, /* site 0: up, coordinator, PAa, 513 */
    [56] = 3,  1, 0,                         /* it joined with 310 */
    [72] = 1,  0, 1, 0, 0, 0, 0, 0, 1, 1, 0, /* site 1: up, subordinate, P--, 110 */
    [112] = 1, 0, 0, 2, 0, 0, 0, 0, 3, 1, 3, /* site 2: up, subordinate, -A-, 313 */
    [136] = 3, 1, 3,                         /* it joined with that */
};

static const uint8_t m3_rows[5 * QC_ROW_BYTES] = {
    [0] = QC_PREPARE,     0, 6, 0, 1, 0, 0,
    [20] = QC_VOTE,       1, 1, 0, 1, 1, 0,
    [40] = QC_JOIN_ABORT, 0, 6, 0, 3, 1, 0,
    [60] = QC_IN_GROUP,   2, 1, 0, 3, 1, 3,
    [80] = QC_OUTCOME,    0, 6, 0, 5, 1, 3,
};

static void expect_m3(const struct list_case *day)
{
    unsigned at;
    expect_list(day);
    for (at = 0; at < sizeof m3_world; at++)
        expect("byte of the world", listed_world()[at], m3_world[at]);
    for (at = 0; at < sizeof m3_rows; at++)
        expect("byte of the store", listed_store()[at], m3_rows[at]);
}

/* The same world as layout 2 had it: 656 bytes, the sites from 16 on. */
static const uint8_t m3_layout_2[656] = {
    [0] = 2,   3, 2, 0, 2, 0, 7, 0, 5, 0, 5, 0, 0, 0, 0, 0,
    [16] = 1,  1, 1, 2, 2, 0, 0, 0, 5, 1, 3,
    [40] = 3,  1, 0,
    [56] = 1,  0, 1, 0, 0, 0, 0, 0, 1, 1, 0,
    [96] = 1,  0, 0, 2, 0, 0, 0, 0, 3, 1, 3,
    [120] = 3, 1, 3,
};

/* As docs/LAYOUT.md has it. */
static void bring_over(uint8_t *world, const uint8_t *old)
{
    memset(world, 0, QC_WORLD_BYTES);
    memcpy(world, old, 16);
    world[0] = QC_LAYOUT;
    memset(world + 16, 1, old[1]);
    memcpy(world + 32, old + 16, 640);
}

static void old_worlds(void)
{
    uint8_t world[QC_WORLD_BYTES], text[QC_REPORT_BYTES], result[QC_RESULT_BYTES];
    begin("17 a world of layout 2");
    expect("number", qc_report(m3_layout_2, sizeof m3_layout_2, 7, 0, 26, text, sizeof text, result, sizeof result), 17);
    begin("17 a world of layout 2 brought over passes");
    bring_over(world, m3_layout_2);
    expect("another world", memcmp(world, m3_world, sizeof world) != 0, 0);
    expect("number", qc_report(world, sizeof world, 7, 0, 26, text, sizeof text, result, sizeof result), 0);
}

void edition_cases(void)
{
    size_t i;
    for (i = 0; i < COUNT(fresh); i++)
        expect_fresh(&fresh[i]);
    for (i = 0; i < COUNT(days); i++)
        expect_m3(&days[i]);
    old_worlds();
}
