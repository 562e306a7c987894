/* Makers for what qc_step takes: terms, a fresh site, the site that comes back from its log, and a delivery.
 *
 * They check nothing; qc_step does. A number too large for its field becomes the largest that the field holds, which qc_step refuses. docs/LAYOUT.md has
 * the bytes.
 */
#ifndef QUORUM_STEP_H
#define QUORUM_STEP_H

#include <string.h>

#include "quorum.h"

#define QC_COMMAND_BYTES (1 + QC_ROW_BYTES) /* the longest command of qc_step: DELIVER and its row */

/* A number's bytes, low byte first. */
static inline void qc_put_number8(uint8_t *bytes, unsigned number)
{
    bytes[0] = (uint8_t)(number > UINT8_MAX ? UINT8_MAX : number);
}

static inline void qc_put_number16(uint8_t *bytes, unsigned number)
{
    const unsigned kept = number > UINT16_MAX ? UINT16_MAX : number;
    bytes[0] = (uint8_t)(kept & UINT8_MAX);
    bytes[1] = (uint8_t)(kept >> 8);
}

/* Terms, QC_TERMS_BYTES bytes: of n sites with quorums C and A, this one's number, and whether it is willing.
 * weights: n of them; or NULL, and each site weighs 1. */
static inline void qc_make_terms(uint8_t *terms, unsigned n, unsigned commit, unsigned abort, const uint8_t *weights, unsigned own, int willing)
{
    unsigned site;
    memset(terms, 0, QC_TERMS_BYTES);
    terms[0] = QC_LAYOUT;
    qc_put_number8(terms + 1, n);
    qc_put_number16(terms + 2, commit);
    qc_put_number16(terms + 4, abort);
    qc_put_number8(terms + 6, own);
    terms[7] = willing != 0;
    for (site = 0; site < n && site < QC_SITES; site++)
        terms[16 + site] = (uint8_t)(weights == NULL ? 1 : weights[site]);
}

/* A fresh site, QC_SITE_BYTES bytes: for a site that has never made a step. */
static inline void qc_make_site(uint8_t *site)
{
    memset(site, 0, QC_SITE_BYTES);
    site[0] = 1;
}

/* The state that a log tells: enum qc_code. */
static inline unsigned qc_state_of_log(unsigned prepare, unsigned group, unsigned outcome)
{
    if (outcome != QC_NO_RECORD)
        return outcome == QC_COMMIT ? QC_COMMITTED : QC_ABORTED;
    if (group != QC_NO_RECORD)
        return group == QC_COMMIT ? QC_COMMIT_GROUP : QC_ABORT_GROUP;
    return prepare != 0 ? QC_PREPARED : QC_ACTIVE;
}

/* The site that CRASH leaves, from the three places of its log: down, subordinate, and knowing what its group record says. RECOVER brings it up.
 * own:     its number, below QC_SITES.
 * prepare: 1 if there is a prepare record, else 0.
 * group:   the group record, enum qc_record; group_codes are the QC_SITES codes in it, and may be NULL where there is none.
 * outcome: the outcome record, enum qc_record. */
static inline void qc_make_site_of_log(uint8_t *site, unsigned own, unsigned prepare, unsigned group, const uint8_t *group_codes, unsigned outcome)
{
    memset(site, 0, QC_SITE_BYTES);
    qc_put_number8(site + 2, prepare);
    qc_put_number8(site + 3, group);
    qc_put_number8(site + 4, outcome);
    if (group != QC_NO_RECORD) {
        memcpy(site + 8, group_codes, QC_SITES);
        memcpy(site + 24, group_codes, QC_SITES);
    }
    site[8 + own] = (uint8_t)qc_state_of_log(prepare, group, outcome);
}

/* DELIVER of a row, QC_COMMAND_BYTES bytes. */
static inline void qc_make_delivery(uint8_t *command, const uint8_t *row)
{
    command[0] = QC_DELIVER;
    memcpy(command + 1, row, QC_ROW_BYTES);
}

#endif
