/* When everyone is back, does it finish (document 02, request (viii))? From C, through the calls that play. Every site that is down recovers, and then
 * three rounds are given, one command a call. all_back_drawn.c does it with worlds of many sorts, all_back_by_hand.c with a few that are worked out.
 * The schedule stands here in the request's words; examples/all_back.c has its own.
 * Exits 0 if all is as it should be, 1 after the first difference.
 */
#include <string.h>

#include "all_back.h"

enum { FILL = 0xee };

const char *const test_name = "all back";
struct day day;

static uint8_t result[QC_RESULT_BYTES];

unsigned sites_in(const uint8_t *world, unsigned state)
{
    unsigned site, count = 0;
    for (site = 0; site < qc_site_count(world); site++)
        count += qc_site_state(world, site) == state;
    return count;
}

unsigned ended(const uint8_t *world)
{
    return sites_in(world, QC_COMMITTED) + sites_in(world, QC_ABORTED);
}

void put_number16(uint8_t *bytes, unsigned number)
{
    bytes[0] = (uint8_t)number;
    bytes[1] = (uint8_t)(number >> 8);
}

/* Lists. */

void reach(void)
{
    memset(day.store, FILL, sizeof day.store);
    expect("number of the list", qc_play_list(day.list, day.length, day.store, sizeof day.store, day.world, sizeof day.world, result,
                                              sizeof result), QC_ACCEPTED);
    day.events = qc_result_events(result);
    day.restarts = 0;
}

void expect_same_list(uint32_t number, const uint8_t *after, size_t length)
{
    static uint8_t world[QC_WORLD_BYTES], store[QC_STORE_BYTES];
    expect("list too long", day.length + length > sizeof day.list, 0);
    memcpy(day.list + day.length, after, length);
    memset(store, FILL, sizeof store);
    expect("number of the list", qc_play_list(day.list, day.length + length, store, sizeof store, world, sizeof world, result, sizeof result),
           number);
    expect("events of the list", qc_result_events(result), day.events);
    expect("place of the list", qc_result_place(result), day.length);
    expect_same("same bytes of the world", world, day.world, sizeof world);
    expect_same("same bytes of the store", store, day.store, sizeof store);
}

void expect_whole_list(void)
{
    static const uint8_t nothing[1] = {0};
    expect_same_list(QC_ACCEPTED, nothing, 0);
}

/* Commands. */

/* A command of so many bytes. */
static uint32_t try_command(const uint8_t *command, size_t size)
{
    uint32_t number;
    expect("list too long", day.length + size > sizeof day.list, 0);
    memcpy(day.list + day.length, command, size);
    number = qc_play_command(day.world, sizeof day.world, day.store, sizeof day.store, day.list, day.length + size, day.length, result,
                             sizeof result);
    if (number == QC_ACCEPTED) {
        day.length += size;
        day.events++;
        day.restarts += command[0] == QC_RECOVER;
        expect("place after a command", qc_result_next_place(result), day.length);
    }
    return number;
}

uint32_t start(void)
{
    static const uint8_t command[] = {QC_START};
    return try_command(command, sizeof command);
}

uint32_t deliver(unsigned row, unsigned site)
{
    const uint8_t command[] = {QC_DELIVER, (uint8_t)row, (uint8_t)(row >> 8), (uint8_t)site};
    return try_command(command, sizeof command);
}

uint32_t at_site(enum qc_command name, unsigned site)
{
    const uint8_t command[] = {(uint8_t)name, (uint8_t)site};
    return try_command(command, sizeof command);
}

unsigned bring_back(void)
{
    unsigned site, down = 0;
    for (site = 0; site < qc_site_count(day.world); site++)
        if (!qc_site_up(day.world, site)) {
            expect("number of RECOVER", at_site(QC_RECOVER, site), QC_ACCEPTED);
            down++;
        }
    return down;
}

/* The schedule. */

/* The row is delivered to another site, and its reply, the row that this adds, back at once. */
static uint32_t ask(unsigned site, unsigned row, unsigned other)
{
    const unsigned reply = qc_row_count(day.world);
    const uint32_t number = deliver(row, other);
    return qc_row_count(day.world) > reply ? deliver(reply, site) : number;
}

/* TIMEOUT there, and its row, if any, to the others in number order. */
static uint32_t turn(unsigned site)
{
    const unsigned row = qc_row_count(day.world);
    uint32_t number = at_site(QC_TIMEOUT, site);
    unsigned other;
    if (qc_row_count(day.world) == row)
        return number;
    for (other = 0; other < qc_site_count(day.world) && number == QC_ACCEPTED; other++)
        if (other != site)
            number = ask(site, row, other);
    return number;
}

uint32_t one_round(void)
{
    uint32_t number = QC_ACCEPTED;
    unsigned site;
    for (site = 0; site < qc_site_count(day.world) && number == QC_ACCEPTED; site++)
        number = turn(site);
    return number;
}

uint32_t three_rounds(void)
{
    uint32_t number = QC_ACCEPTED;
    unsigned round;
    for (round = 0; round < ROUNDS && number == QC_ACCEPTED; round++)
        number = one_round();
    return number;
}

int main(void)
{
    drawn_worlds();
    worlds_by_hand();
    return 0;
}
