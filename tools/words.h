/* Words for what the library has as numbers, put together in a piece of text. */
#ifndef WORDS_H
#define WORDS_H

#include "../include/quorum_read.h"

/* A piece of text; what finds no room is left out. The longest that the tool makes has some 450 characters. */
enum { WORDS_ROOM = 640 };

struct words {
    char text[WORDS_ROOM];
    size_t length;
};

/* Empty. */
void no_words(struct words *words);

/* More at its end, as printf has it. */
#ifdef __GNUC__
__attribute__((format(printf, 2, 3)))
#endif
void add(struct words *words, const char *format, ...);

/* Does a byte show on paper? Those of 32 to 126 do; no list begins with one. */
int shows(uint8_t byte);

/* Blanks, up to a length. */
void add_blanks(struct words *words, size_t length);

/* `1 site`, `2 sites`. */
void add_counted(struct words *words, unsigned count, const char *thing);

/* A set of sites, bit i for site i: `0, 2 to 4 and 7`. */
void add_set(struct words *words, unsigned set);

/* The same after the word: `site 1`, `sites 1 and 2`. */
void add_sites(struct words *words, unsigned set);

/* All sites below n. */
unsigned all_sites(unsigned n);

/* A competition's sizes. */
void add_sizes(struct words *words, const uint8_t *world);

/* A site's log and its n codes, as the report has them. */
void add_log(struct words *words, const uint8_t *site);
void add_codes(struct words *words, const uint8_t *site, unsigned n);

/* A state in words, and as the report has it. */
const char *state_words(unsigned code);
const char *state_name(unsigned code);

/* A message's kind; a command as it is typed; what is written to the log, by its letter. */
const char *kind_words(unsigned kind);
const char *command_words(unsigned command);
const char *record_words(char letter);

#endif
