/* A program that asks the box in every instant whether a card is in: value 0 isn't 0 then. It shows the picture (action 1) if so, and asks for the
 * card (action 2) if not. Every answer is looked at before anything of it is used; a refusal ends the program with status 1. */
#include <string.h>

#include "refused.h"

int main(void)
{
    static const char text[] = "Jr.Loop(Jr.Seq(Jr.If(0, Jr.Atom(1), Jr.Atom(2)), Jr.Stop()))";
    static const uint64_t no_events[ZAPPER_EVENT_WORDS];
    static const uint8_t values[3][ZAPPER_VALUES] = {{0}, {1}, {0}};
    uint8_t table[100], state[6 * 4]; /* six nodes */
    uint8_t store[2] = {0};           /* nothing here is parked */
    uint16_t atoms[2];                /* as many places as the check answers */
    uint64_t read[ZAPPER_TEXT_PLACES], started[ZAPPER_START_PLACES], answer[ZAPPER_INSTANT_PLACES];

    zapper_read((const uint8_t *)text, strlen(text), table, sizeof table, read);
    if (refused("text", read))
        return 1;
    size_t length = read[ZAPPER_LENGTH];
    zapper_start(table, length, state, sizeof state, started);
    if (refused("start", started))
        return 1;
    for (int k = 0; k < 3; k++) {
        zapper_instant(table, length, state, sizeof state, no_events, values[k], atoms, sizeof atoms / sizeof atoms[0],
                       store, sizeof store, answer);
        if (refused("instant", answer))
            return 1;
        printf("%s:", values[k][0] ? "a card" : "no card");
        for (uint64_t a = 0; a < answer[ZAPPER_ATOMS]; a++)
            printf(" action %d", (int)atoms[a]);
        printf("\n");
    }
    return 0;
}
