#include <stdarg.h>
#include <stdio.h>

#include "words.h"

void no_words(struct words *words)
{
    words->text[0] = 0;
    words->length = 0;
}

void add(struct words *words, const char *format, ...)
{
    const size_t room = WORDS_ROOM - words->length;
    va_list values;
    int length;

    va_start(values, format);
    length = vsnprintf(words->text + words->length, room, format, values);
    va_end(values);
    if (length > 0)
        words->length += (size_t)length < room ? (size_t)length : room - 1;
}

int shows(uint8_t byte)
{
    return byte >= ' ' && byte <= '~';
}

void add_blanks(struct words *words, size_t length)
{
    if (words->length < length)
        add(words, "%*s", (int)(length - words->length), "");
}

void add_counted(struct words *words, unsigned count, const char *thing)
{
    add(words, "%u %s%s", count, thing, count == 1 ? "" : "s");
}

unsigned all_sites(unsigned n)
{
    return (1u << n) - 1;
}

/* The site after the run of neighbours that begins at a site of a set. */
static unsigned run_end(unsigned set, unsigned site)
{
    while (site < QC_SITES && (set >> site & 1) != 0)
        site++;
    return site;
}

/* The site after the first item of a set: a run of three or more, or a site alone. */
static unsigned item_end(unsigned set, unsigned first)
{
    const unsigned end = run_end(set, first);

    return end - first >= 3 ? end : first + 1;
}

/* The lowest site of a set that is not empty. */
static unsigned lowest(unsigned set)
{
    unsigned site = 0;

    while ((set >> site & 1) == 0)
        site++;
    return site;
}

void add_set(struct words *words, unsigned set)
{
    const char *between = "";
    unsigned first, end;

    while (set != 0) {
        first = lowest(set);
        end = item_end(set, first);
        set &= ~all_sites(end);
        if (between[0] != 0 && set == 0)
            between = " and ";
        add(words, "%s%u", between, first);
        if (end > first + 1)
            add(words, " to %u", end - 1);
        between = ", ";
    }
}

void add_sites(struct words *words, unsigned set)
{
    add(words, (set & (set - 1)) == 0 ? "site " : "sites ");
    add_set(words, set);
}

/* Weights, where some site does not weigh 1. */
static void add_weights(struct words *words, const uint8_t *world)
{
    const unsigned n = qc_site_count(world);
    unsigned site, uneven = 0;
    struct words weights;

    no_words(&weights);
    for (site = 0; site < n; site++) {
        add(&weights, " %u", qc_weight(world, site));
        uneven += qc_weight(world, site) != 1;
    }
    if (uneven != 0)
        add(words, ", weights%s", weights.text);
}

void add_sizes(struct words *words, const uint8_t *world)
{
    const unsigned n = qc_site_count(world), unwilling = all_sites(n) & ~qc_willing(world);

    add(words, "%u sites, commit quorum %u, abort quorum %u", n, qc_commit_quorum(world), qc_abort_quorum(world));
    add_weights(words, world);
    if (unwilling == 0) {
        add(words, ", all willing");
    } else if (unwilling == all_sites(n)) {
        add(words, ", none willing");
    } else {
        add(words, ", ");
        add_sites(words, unwilling);
        add(words, " unwilling");
    }
}

void add_log(struct words *words, const uint8_t *site)
{
    add(words, "%c%c%c", "-P"[qc_own_prepare(site)], "-CA"[qc_own_group(site)], "-ca"[qc_own_outcome(site)]);
}

void add_codes(struct words *words, const uint8_t *site, unsigned n)
{
    unsigned of;

    for (of = 0; of < n; of++)
        add(words, "%u", qc_own_code(site, of));
}

const char *state_words(unsigned code)
{
    static const char *const words[] = {"active", "prepared", "in the commit group", "in the abort group", "committed", "aborted"};

    return words[code];
}

const char *state_name(unsigned code)
{
    static const char *const names[] = {"active", "prepared", "commit-group", "abort-group", "committed", "aborted"};

    return names[code];
}

const char *kind_words(unsigned kind)
{
    static const char *const words[] = {"", "prepare", "vote", "join commit", "join abort", "in-group", "outcome", "outcome-ack"};

    return words[kind];
}

const char *command_words(unsigned command)
{
    static const char *const words[] = {"", "start", "deliver", "timeout", "crash", "recover"};

    return words[command];
}

const char *record_words(char letter)
{
    switch (letter) {
    case 'P':
        return "prepare";
    case 'C':
        return "group commit";
    case 'A':
        return "group abort";
    case 'c':
        return "outcome commit";
    default:
        return "outcome abort";
    }
}
