/* Readers for what quorum.h hands over: worlds, single sites, rows and results, and an answer in words.
 *
 * They check nothing. A world is one that a call has left (QC_WORLD_BYTES bytes), a site's number is below QC_SITES, a row below the world's row count,
 * and a result is of an accepted call, or of qc_play_list, qc_write_lines, qc_read_lines, qc_write_quiet or qc_convert unless the answer is 17.
 * docs/LAYOUT.md has the bytes.
 */
#ifndef QUORUM_READ_H
#define QUORUM_READ_H

#include "quorum.h"

/* Numbers in a buffer, low byte first. */
static inline unsigned qc_number16(const uint8_t *bytes)
{
    return bytes[0] | (unsigned)bytes[1] << 8;
}

static inline uint32_t qc_number32(const uint8_t *bytes)
{
    return qc_number16(bytes) | (uint32_t)qc_number16(bytes + 2) << 16;
}

static inline uint64_t qc_number64(const uint8_t *bytes)
{
    return qc_number32(bytes) | (uint64_t)qc_number32(bytes + 4) << 32;
}

/* Results. */

/* Of qc_play_list: the accepted events. */
static inline uint32_t qc_result_events(const uint8_t *result)
{
    return qc_number32(result);
}

/* Of qc_play_list: the list's length, or the place of the refused command. */
static inline uint32_t qc_result_place(const uint8_t *result)
{
    return qc_number32(result + 4);
}

/* Of qc_play_command: the place after the command. */
static inline uint64_t qc_result_next_place(const uint8_t *result)
{
    return qc_number64(result);
}

/* Of qc_report: the text's length. */
static inline uint64_t qc_result_length(const uint8_t *result)
{
    return qc_number64(result);
}

/* Of qc_write_lines, qc_read_lines, qc_write_quiet and qc_convert: the length of the text or list written; 0 where refused. */
static inline uint64_t qc_lines_length(const uint8_t *result)
{
    return qc_number64(result);
}

/* Of qc_write_lines, qc_read_lines and qc_convert: the length of the list or text handed in, or the place in it where it is refused, for qc_convert
 * always 0. Of qc_write_quiet: 0. */
static inline uint64_t qc_lines_place(const uint8_t *result)
{
    return qc_number64(result + 8);
}

/* Of qc_step: the prepare record, 1 if the step has written it, else 0. */
static inline unsigned qc_step_prepare(const uint8_t *result)
{
    return result[0];
}

/* Of qc_step: the group record that the step has written, enum qc_record. */
static inline unsigned qc_step_group(const uint8_t *result)
{
    return result[1];
}

/* Of qc_step: the outcome record that the step has written, enum qc_record. */
static inline unsigned qc_step_outcome(const uint8_t *result)
{
    return result[2];
}

/* Of qc_step: has the step written a record? If so it must be on disk before the step's row is sent (quorum.h, A CLUB'S OWN SERVER). */
static inline int qc_step_wrote(const uint8_t *result)
{
    return qc_step_prepare(result) != 0 || qc_step_group(result) != QC_NO_RECORD || qc_step_outcome(result) != QC_NO_RECORD;
}

/* Of qc_step: how many codes the site has taken from the row that was delivered. */
static inline uint32_t qc_step_news(const uint8_t *result)
{
    return qc_number32(result + 4);
}

/* Is the row that qc_step has left one to be sent? */
static inline int qc_step_sends(const uint8_t *row)
{
    return row[0] != 0;
}

/* Sizes: of a world; the first three, and weights, also of the terms of a single site. */

static inline unsigned qc_site_count(const uint8_t *world)
{
    return world[1];
}

static inline unsigned qc_commit_quorum(const uint8_t *world)
{
    return qc_number16(world + 2);
}

static inline unsigned qc_abort_quorum(const uint8_t *world)
{
    return qc_number16(world + 4);
}

/* Of a world: the willing sites, bit i for site i. */
static inline unsigned qc_willing(const uint8_t *world)
{
    return qc_number16(world + 6);
}

/* What a site weighs in a quorum; 0 from n up. In a first-edition list's world each of the n sites weighs 1. */
static inline unsigned qc_weight(const uint8_t *world, unsigned site)
{
    return world[16 + site];
}

/* Of terms: the site's number. */
static inline unsigned qc_terms_own(const uint8_t *terms)
{
    return terms[6];
}

/* Of terms: 1 if the site is willing, else 0. */
static inline unsigned qc_terms_willing(const uint8_t *terms)
{
    return terms[7];
}

/* Of a world: the rows sent so far. */
static inline unsigned qc_row_count(const uint8_t *world)
{
    return qc_number16(world + 8);
}

/* Of a world: the news, which is how many codes sites have taken from rows, over all accepted deliveries. A delivery that does not raise it was idle
 * (quorum.h, NEWS). */
static inline uint32_t qc_news(const uint8_t *world)
{
    return qc_number32(world + 10);
}

/* A single site, as qc_step takes it and a world holds it. Its state is what it knows of itself: qc_own_code of its own number. */

/* 1 up, 0 down. */
static inline unsigned qc_own_up(const uint8_t *site)
{
    return site[0];
}

/* enum qc_role. */
static inline unsigned qc_own_role(const uint8_t *site)
{
    return site[1];
}

/* The log's prepare record: 1 written, 0 not. */
static inline unsigned qc_own_prepare(const uint8_t *site)
{
    return site[2];
}

/* The log's group record: enum qc_record. */
static inline unsigned qc_own_group(const uint8_t *site)
{
    return site[3];
}

/* The log's outcome record: enum qc_record. */
static inline unsigned qc_own_outcome(const uint8_t *site)
{
    return site[4];
}

/* What the site knows of another: enum qc_code. */
static inline unsigned qc_own_code(const uint8_t *site, unsigned of)
{
    return site[8 + of];
}

/* What the site knew of another when it joined its group; 0 where it has joined none. */
static inline unsigned qc_own_group_code(const uint8_t *site, unsigned of)
{
    return site[24 + of];
}

/* Has the site an outcome? */
static inline int qc_own_terminated(const uint8_t *site)
{
    return qc_own_outcome(site) != QC_NO_RECORD;
}

/* A world's sites: the same of the site with this number. */

/* The first byte of its record. */
static inline const uint8_t *qc_site(const uint8_t *world, unsigned site)
{
    return world + 32 + (size_t)QC_SITE_BYTES * site;
}

static inline unsigned qc_site_up(const uint8_t *world, unsigned site)
{
    return qc_own_up(qc_site(world, site));
}

static inline unsigned qc_site_role(const uint8_t *world, unsigned site)
{
    return qc_own_role(qc_site(world, site));
}

static inline unsigned qc_log_prepare(const uint8_t *world, unsigned site)
{
    return qc_own_prepare(qc_site(world, site));
}

static inline unsigned qc_log_group(const uint8_t *world, unsigned site)
{
    return qc_own_group(qc_site(world, site));
}

static inline unsigned qc_log_outcome(const uint8_t *world, unsigned site)
{
    return qc_own_outcome(qc_site(world, site));
}

static inline unsigned qc_log_group_code(const uint8_t *world, unsigned site, unsigned of)
{
    return qc_own_group_code(qc_site(world, site), of);
}

static inline unsigned qc_site_code(const uint8_t *world, unsigned site, unsigned of)
{
    return qc_own_code(qc_site(world, site), of);
}

/* Its state: enum qc_code. */
static inline unsigned qc_site_state(const uint8_t *world, unsigned site)
{
    return qc_site_code(world, site, site);
}

static inline int qc_site_terminated(const uint8_t *world, unsigned site)
{
    return qc_own_terminated(qc_site(world, site));
}

/* Rows of a store. The row that qc_step leaves, or that has arrived, is row 0 of a store of one row. */

/* The first byte of a row. */
static inline const uint8_t *qc_row(const uint8_t *store, unsigned row)
{
    return store + (size_t)QC_ROW_BYTES * row;
}

/* enum qc_kind. */
static inline unsigned qc_row_kind(const uint8_t *store, unsigned row)
{
    return qc_row(store, row)[0];
}

/* The site that sent it. */
static inline unsigned qc_row_sender(const uint8_t *store, unsigned row)
{
    return qc_row(store, row)[1];
}

/* The sites that it goes to, bit i for site i. */
static inline unsigned qc_row_destinations(const uint8_t *store, unsigned row)
{
    return qc_number16(qc_row(store, row) + 2);
}

/* Does it go to this site? */
static inline int qc_row_goes_to(const uint8_t *store, unsigned row, unsigned site)
{
    return (qc_row_destinations(store, row) >> site & 1) != 0;
}

/* What its sender knows of a site: enum qc_code. */
static inline unsigned qc_row_code(const uint8_t *store, unsigned row, unsigned of)
{
    return qc_row(store, row)[4 + of];
}

/* An answer in words. */
static inline const char *qc_answer_text(uint32_t number)
{
    switch (number) {
#define QC_TEXT(name, number, text) \
    case number:                    \
        return text;
        QC_ANSWERS(QC_TEXT)
#undef QC_TEXT
    default:
        return "no answer of this library";
    }
}

#endif
