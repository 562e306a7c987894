/* Why a list is refused for its length or its header. */
#include "why.h"

/* What a header says. */
struct sizes {
    unsigned n, commit, abort, willing;
    const uint8_t *weights; /* NULL where each site weighs 1 */
};

/* The sizes of a list, or of lines whose sizes are refused: their first line is in the form. */
static struct sizes sizes_of(const struct list *list)
{
    const uint8_t *bytes = list->bytes;
    struct sizes sizes = {0, 0, 0, 0, NULL};

    if (bytes == NULL) {
        sscanf((const char *)list->text, "sites %u commit %u abort %u willing %u", &sizes.n, &sizes.commit, &sizes.abort, &sizes.willing);
    } else if (bytes[0] == QC_SECOND_EDITION) {
        sizes.n = bytes[1];
        sizes.commit = qc_number16(bytes + 2);
        sizes.abort = qc_number16(bytes + 4);
        sizes.willing = qc_number16(bytes + 6);
        sizes.weights = bytes + 8;
    } else {
        sizes.n = bytes[0];
        sizes.commit = bytes[1];
        sizes.abort = bytes[2];
        sizes.willing = qc_number16(bytes + 3);
    }
    return sizes;
}

void why_long(struct words *words, const struct refusal *refusal)
{
    if (refusal->list->text_length > INPUT_BYTES) {
        add(words, "the text has more than %u bytes, and that of a list never has", (unsigned)INPUT_BYTES);
        return;
    }
    if (refusal->list->text != NULL)
        add(words, "these lines make ");
    else if (refusal->list->length <= QC_LIST_BYTES)
        add(words, "in the other edition this is ");
    else
        add(words, "this is ");
    add(words, "a list of more than %u bytes", (unsigned)QC_LIST_BYTES);
}

void why_short(struct words *words, const struct refusal *refusal)
{
    const struct list *list = refusal->list;

    add(words, "the list has ");
    add_counted(words, (unsigned)list->length, "byte");
    if (list->length < QC_HEADER_BYTES)
        add(words, ", and its header at least %u", (unsigned)QC_HEADER_BYTES);
    else
        add(words, ", and its header %u", (unsigned)QC_SECOND_HEADER_BYTES(list->bytes[1]));
}

/* Is it a list of the second edition, by its beginning? */
static int is_second(const uint8_t *bytes)
{
    return bytes[0] == QC_SECOND_EDITION && bytes[1] >= 3 && bytes[1] <= QC_SITES;
}

void why_sites(struct words *words, const struct refusal *refusal)
{
    const uint8_t *bytes = refusal->list->bytes;

    if (bytes != NULL && shows(bytes[0]))
        add(words, "this is text and not a list; if it is lines, 'quorum list' makes a list of them");
    else if (bytes != NULL && is_second(bytes))
        add(words, "this is a list of the second edition, and only the first has lines; 'quorum convert' may bring it back");
    else
        add(words, "the number of sites is %u, not 3 to 16", sizes_of(refusal->list).n);
}

static unsigned weight_of(const struct sizes *sizes, unsigned site)
{
    return sizes->weights == NULL ? 1 : sizes->weights[site];
}

static unsigned heaviest_of(const struct sizes *sizes)
{
    unsigned site, heaviest = 0;

    for (site = 1; site < sizes->n; site++)
        if (weight_of(sizes, site) > weight_of(sizes, heaviest))
            heaviest = site;
    return heaviest;
}

/* What all sites weigh but one. */
static unsigned weight_without(const struct sizes *sizes, unsigned without)
{
    unsigned site, weight = 0;

    for (site = 0; site < sizes->n; site++)
        weight += site == without ? 0 : weight_of(sizes, site);
    return weight;
}

static void add_over(struct words *words, const struct sizes *sizes, const char *which, unsigned quorum, unsigned most)
{
    add(words, "%s quorum %u is over %u, ", which, quorum, most);
    add(words, sizes->weights == NULL ? "one less than there are sites" : "what all sites weigh but the heaviest");
}

void why_quorums(struct words *words, const struct refusal *refusal)
{
    const struct sizes sizes = sizes_of(refusal->list);
    const unsigned heaviest = heaviest_of(&sizes), weight = weight_of(&sizes, heaviest), most = weight_without(&sizes, heaviest);

    if (weight >= most)
        add(words, "site %u weighs %u and all others together %u, so there can be no quorums", heaviest, weight, most);
    else if (sizes.commit > most)
        add_over(words, &sizes, "commit", sizes.commit, most);
    else if (sizes.abort > most)
        add_over(words, &sizes, "abort", sizes.abort, most);
    else
        add(words, "commit quorum %u and abort quorum %u make %u together, and must make %u or more", sizes.commit, sizes.abort,
            sizes.commit + sizes.abort, most + weight + 1);
}

void why_willing(struct words *words, const struct refusal *refusal)
{
    const struct sizes sizes = sizes_of(refusal->list);
    const unsigned none = sizes.willing & ~all_sites(sizes.n);

    add_sites(words, none);
    add(words, " cannot be willing, for sites are 0 to %u", sizes.n - 1);
}

void why_weight(struct words *words, const struct refusal *refusal)
{
    const struct sizes sizes = sizes_of(refusal->list);
    unsigned site = 0;

    while (site + 1 < sizes.n && weight_of(&sizes, site) != 0)
        site++;
    add(words, "site %u weighs 0, not 1 to %u", site, (unsigned)QC_WEIGHT);
}

void why_uneven(struct words *words, const struct refusal *refusal)
{
    const struct sizes sizes = sizes_of(refusal->list);
    unsigned site = 0;

    while (site + 1 < sizes.n && weight_of(&sizes, site) == 1)
        site++;
    add(words, "site %u weighs %u, and in the first edition each weighs 1", site, weight_of(&sizes, site));
}
