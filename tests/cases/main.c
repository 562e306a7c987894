/* Plays all cases. Exits 0 if each gives what it must, 1 after the first that does not. */
#include <stdio.h>
#include <stdlib.h>
#include <string.h>

#include "cases.h"

static unsigned cases;
static const char *current;

void begin(const char *name)
{
    cases++;
    current = name;
}

void expect(const char *what, uint64_t got, uint64_t wanted)
{
    if (got != wanted) {
        printf("cases: '%s': %s %llu, not %llu\n", current, what, (unsigned long long)got, (unsigned long long)wanted);
        exit(1);
    }
}

void make_changes(uint8_t *bytes, const struct change *changes)
{
    unsigned i, byte;
    for (i = 0; i < CHANGES; i++)
        for (byte = 0; byte < changes[i].bytes; byte++)
            bytes[changes[i].at + byte] = (uint8_t)(byte < 4 ? changes[i].value >> 8 * byte : 0);
}

void make_world(uint8_t *world, const struct change *changes)
{
    static const uint8_t fresh[] = {3, 2, 2, 7, 0};
    static uint8_t store[QC_STORE_BYTES];
    uint8_t result[QC_RESULT_BYTES];
    expect("a fresh world", qc_play_list(fresh, sizeof fresh, store, sizeof store, world, QC_WORLD_BYTES, result, sizeof result), 0);
    make_changes(world, changes);
}

static struct {
    uint8_t world[QC_WORLD_BYTES], store[QC_STORE_BYTES], result[QC_RESULT_BYTES];
} now, before;

const uint8_t *store_after(void)
{
    return now.store;
}

const uint8_t *expect_command(const struct command *command, const struct change *changes, const uint8_t *row, size_t store_length)
{
    unsigned answer;
    make_world(now.world, changes);
    memset(now.store, 0, sizeof now.store);
    memcpy(now.store, row, QC_ROW_BYTES);
    memset(now.result, 0xee, sizeof now.result);
    before = now;
    answer = qc_play_command(now.world, sizeof now.world, now.store, store_length, command->list, command->length, command->at,
                             now.result, sizeof now.result);
    expect("number", answer, command->answer);
    if (answer == QC_ACCEPTED)
        expect("place", qc_result_next_place(now.result), command->place);
    else
        expect("refused, buffers changed", memcmp(&now, &before, sizeof now) != 0, 0);
    return now.world;
}

int main(void)
{
    list_cases();
    command_cases();
    row_cases();
    world_cases();
    merging_cases();
    news_cases();
    report_cases();
    line_cases();
    bad_line_cases();
    long_line_cases();
    quiet_cases();
    weight_cases();
    edition_cases();
    weighing_cases();
    timeout_cases();
    convert_cases();
    bad_convert_cases();
    converted_cases();
    step_refusal_cases();
    step_cases();
    printf("cases: %u cases, around the numbers 1 to 22, of merging, of weights, of editions and of single sites\n", cases);
    return 0;
}
