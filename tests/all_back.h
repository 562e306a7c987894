/* What the checks of the rounds share: a competition as it is played, and the schedule of document 02, request (viii). */
#ifndef ALL_BACK_H
#define ALL_BACK_H

#include "shared.h"

enum { ROUNDS = 3 };

/* Worlds that are drawn, and worlds by hand. */
void drawn_worlds(void);
void worlds_by_hand(void);

/* The competition that is played, and the list of all that was accepted in it so far. */
struct day {
    uint8_t world[QC_WORLD_BYTES], store[QC_STORE_BYTES], list[QC_LIST_BYTES];
    size_t length;
    unsigned events, restarts;
};

extern struct day day;

/* The world after the list as it stands, which must be accepted. */
void reach(void);

/* One command. Each gives its number; one that is refused does not join the list. The last is for TIMEOUT, CRASH or RECOVER. */
uint32_t start(void);
uint32_t deliver(unsigned row, unsigned site);
uint32_t at_site(enum qc_command name, unsigned site);

/* RECOVER for every site that is down. Gives how many were. */
unsigned bring_back(void);

/* The schedule. Both give the number of the first event that is refused, and play nothing after it. */
uint32_t one_round(void);
uint32_t three_rounds(void);

/* The list, and after it bytes that are refused with this number, in one call: it must leave what its commands have left. */
void expect_same_list(uint32_t number, const uint8_t *after, size_t length);
void expect_whole_list(void);

/* How many sites are in a state, and how many have an outcome. */
unsigned sites_in(const uint8_t *world, unsigned state);
unsigned ended(const uint8_t *world);

void put_number16(uint8_t *bytes, unsigned number);

#endif
