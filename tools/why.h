/* The reason of each refusal, as reasons.c tells it by its number. */
#ifndef WHY_H
#define WHY_H

#include "reasons.h"

typedef void why(struct words *words, const struct refusal *refusal);

/* why_header.c */
why why_long, why_short, why_sites, why_quorums, why_willing, why_weight, why_uneven;

/* why_command.c */
why why_command, why_cut, why_no_site, why_no_message, why_not_sent, why_down, why_up, why_started, why_full;

/* why_line.c */
why why_line;

#endif
