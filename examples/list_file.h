/* What play_day.c, quiet_list.c, convert_list.c and all_back.c share: a list is read from a file, or written to standard output. */
#ifndef LIST_FILE_H
#define LIST_FILE_H

#include <stdio.h>

#include "../include/quorum.h"

/* Room for one byte more than a list may have, so that a longer file is refused with 1. */
enum { FILE_ROOM = QC_LIST_BYTES + 1 };

/* The bytes of a file, or of standard input where there is no name, as far as there is room. Gives 0, or says why they cannot be read and gives -1. */
static inline int read_list(const char *name, uint8_t bytes[FILE_ROOM], size_t *length)
{
    FILE *file = name == NULL ? stdin : fopen(name, "rb");
    int failed = file == NULL;

    if (!failed) {
        *length = fread(bytes, 1, FILE_ROOM, file);
        failed = ferror(file);
    }
    if (failed)
        perror(name == NULL ? "standard input" : name);
    if (file != NULL && name != NULL)
        fclose(file);
    return failed ? -1 : 0;
}

/* The bytes, all of them, to standard output. Gives 0, or says why they cannot be written and gives -1. */
static inline int write_list(const uint8_t *bytes, size_t length)
{
    if (fwrite(bytes, 1, length, stdout) == length && fflush(stdout) == 0)
        return 0;
    perror("standard output");
    return -1;
}

#endif
