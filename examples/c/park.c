/* An install of two bouquets is parked when the subscriber's card is pulled (event 6), taken out of the box's store and handed to a second box, which
 * plays it on from where it stood: of the two bouquets only the first, event 1, is still waited for there (examples/move). Every answer is looked at
 * before anything of it is used; a refusal ends the program with status 1. */
#include <string.h>

#include "refused.h"

enum {
    NODES = 16,
    MOST_ATOMS = 6,   /* as many as the check answers */
    MOST_PARKED = 48, /* likewise: 4 bytes, and 4 for each of the 11 nodes that can be parked */
    CARD_PULLED = 6,
    NO_EVENT = -1
};

/* What a box keeps over its instants. */
struct box {
    const char *name;
    uint8_t table[200];
    size_t table_length;
    uint8_t state[4 * NODES];
    uint8_t store[2 + MOST_PARKED]; /* begun empty: its first two bytes 0 */
};

/* Runs an instant of a box with one event or none, and lists it; whether it was run. */
static int instant(struct box *box, int event)
{
    static const uint8_t values[ZAPPER_VALUES]; /* nothing here asks for one */
    uint64_t handed_in[ZAPPER_EVENT_WORDS] = {0}, answer[ZAPPER_INSTANT_PLACES];
    uint16_t atoms[MOST_ATOMS];

    if (event != NO_EVENT)
        handed_in[event / 64] = (uint64_t)1 << event % 64;
    zapper_instant(box->table, box->table_length, box->state, sizeof box->state, handed_in, values, atoms, MOST_ATOMS,
                   box->store, sizeof box->store, answer);
    if (refused("instant", answer))
        return 0;
    printf("%s: %s", box->name, answer[ZAPPER_FINISHED] ? "TERM" : "STOP");
    for (uint64_t a = 0; a < answer[ZAPPER_ATOMS]; a++)
        printf(" action %d", (int)atoms[a]);
    printf(", %d bytes parked\n", box->store[0] * 256 + box->store[1]);
    return 1;
}

int main(void)
{
    static const char text[] = "Jr.Seq(Jr.Atom(90), Jr.Freezable(6, Jr.Par(Jr.Seq(Jr.Atom(101), Jr.Await(1), Jr.Atom(111)), "
                               "Jr.Seq(Jr.Atom(102), Jr.Await(2), Jr.Atom(112)))), Jr.Atom(93))";
    static struct box first = {.name = "first box"}, second = {.name = "second box"};
    uint64_t read[ZAPPER_TEXT_PLACES], checked[ZAPPER_CHECK_PLACES], started[ZAPPER_START_PLACES], taken[ZAPPER_TAKE_PLACES];

    zapper_read((const uint8_t *)text, strlen(text), first.table, sizeof first.table, read);
    if (refused("text", read))
        return 1;
    first.table_length = read[ZAPPER_LENGTH];
    zapper_check(first.table, first.table_length, checked);
    if (refused("check", checked))
        return 1;
    printf("an instant does at most %d actions and parks at most %d bytes\n", (int)checked[ZAPPER_MOST_ATOMS], (int)checked[ZAPPER_PARKED]);
    zapper_start(first.table, first.table_length, first.state, sizeof first.state, started);
    if (refused("start", started))
        return 1;
    if (!instant(&first, NO_EVENT) || !instant(&first, 2) || !instant(&first, CARD_PULLED))
        return 1;

    /* The piece goes straight into the rooms of the second box, which isn't started: it goes on. */
    zapper_take(first.table, first.table_length, first.store, sizeof first.store, CARD_PULLED,
                second.table, sizeof second.table, second.state, sizeof second.state, taken);
    if (refused("take", taken))
        return 1;
    second.table_length = taken[ZAPPER_TABLE_LENGTH];
    printf("taken: a table of %d bytes, a state of %d\n", (int)taken[ZAPPER_TABLE_LENGTH], (int)taken[ZAPPER_STATE_LENGTH]);

    if (!instant(&first, NO_EVENT) || !instant(&second, NO_EVENT) || !instant(&second, 1))
        return 1;
    return 0;
}
