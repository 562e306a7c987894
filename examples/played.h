/* What play_day.c, play_lines.c, weights.c and all_back.c share: a list is played, and its report printed. */
#ifndef PLAYED_H
#define PLAYED_H

#include <stdio.h>

#include "../include/quorum_read.h"

/* Exit statuses. */
enum { PLAYED = 0, REFUSED = 1, FAILED = 2 };

/* How a list ended; its world and its rows stand below. */
struct played {
    uint32_t number, events, place;
};

static uint8_t world[QC_WORLD_BYTES], store[QC_STORE_BYTES];

static struct played play(const uint8_t *list, size_t length)
{
    uint8_t result[QC_RESULT_BYTES];
    struct played played;

    played.number = qc_play_list(list, length, store, sizeof store, world, sizeof world, result, sizeof result);
    played.events = qc_result_events(result);
    played.place = qc_result_place(result);
    return played;
}

/* Is there no world to report? 1 to 5 and 21 are for the list's length or header. */
static int has_no_world(uint32_t number)
{
    return (number >= QC_LIST_LONG && number <= QC_BAD_WILLING) || number == QC_BAD_WEIGHT;
}

/* Prints the report of the world after a play, or the refusal alone where there is no world to report. Gives the exit status. */
static int print_report(struct played played)
{
    uint8_t text[QC_REPORT_BYTES], result[QC_RESULT_BYTES];
    uint32_t refused;

    if (has_no_world(played.number)) {
        printf("refused %u at %u\n", (unsigned)played.number, (unsigned)played.place);
        return REFUSED;
    }
    refused = qc_report(world, sizeof world, played.events, played.number, played.place, text, sizeof text, result, sizeof result);
    if (refused != QC_ACCEPTED) {
        fprintf(stderr, "report refused: %s\n", qc_answer_text(refused));
        return FAILED;
    }
    fwrite(text, 1, (size_t)qc_result_length(result), stdout);
    return played.number == QC_ACCEPTED ? PLAYED : REFUSED;
}

/* The exit status, once all is printed. */
static int printed(int status)
{
    if (fflush(stdout) != 0) {
        perror("standard output");
        return FAILED;
    }
    return status;
}

#endif
