/* Checks a table, starts its program and runs three instants of it (01, "Bench list", K3), listing each as the listing program does
 * and, where its end was declared, what it waited for. Every answer is looked at before anything of it is used; a refusal ends the program
 * with status 1. */
#include "refused.h"

/* Par(Seq(Await 0, Seq(Atom 7, Generate 1)), Await 1), two events */
static const uint8_t table[] = {
    4, 0, 0, 0, 0, 7, /* Par, of seven nodes */
    3, 0, 0, 0, 0, 5, /* Seq */
    8, 0, 0, 0, 0, 1, /* Await, configuration 0 */
    3, 0, 0, 0, 0, 3, /* Seq */
    2, 0, 0, 7, 0, 1, /* Atom 7 */
    7, 0, 0, 1, 0, 1, /* Generate 1 */
    8, 0, 0, 1, 0, 1, /* Await, configuration 1 */
    0, 0, 0, 1,       /* event 0 */
    0, 1, 0, 1,       /* event 1 */
    0, 7, 0, 2, 0, 2, /* seven nodes, two configurations, two events */
    0, 50, 0, 8,      /* back to the first node, back to the first configuration */
};

/* The numbers of a list, joined by commas; `-` if there is none. */
static void print_events(const uint64_t *words)
{
    const char *before = " ";
    for (int e = 0; e < ZAPPER_NO_EVENT; e++)
        if (words[e / 64] >> (e % 64) & 1) {
            printf("%s%d", before, e);
            before = ",";
        }
    if (*before == ' ')
        printf(" -");
}

static void print_atoms(const uint16_t *atoms, uint64_t count)
{
    const char *before = " ";
    for (uint64_t k = 0; k < count; k++) {
        printf("%s%u", before, (unsigned)atoms[k]);
        before = ",";
    }
    if (*before == ' ')
        printf(" -");
}

int main(void)
{
    static const uint64_t handed_in[3][ZAPPER_EVENT_WORDS] = {{0}, {1u << 0}, {1u << 1}};
    static const uint8_t values[ZAPPER_VALUES]; /* nothing here asks for one */
    uint8_t state[7 * 4]; /* four bytes a node */
    uint8_t store[2] = {0}; /* nothing here is parked */
    uint16_t atoms[1];    /* as many places as the check answers */
    uint64_t checked[ZAPPER_CHECK_PLACES], started[ZAPPER_START_PLACES], answer[ZAPPER_INSTANT_PLACES];

    zapper_check(table, sizeof table, checked);
    if (refused("check", checked))
        return 1;
    printf("generations %d, atoms %d, weight %d\n", (int)checked[ZAPPER_GENERATIONS], (int)checked[ZAPPER_MOST_ATOMS], (int)checked[ZAPPER_WEIGHT]);

    zapper_start(table, sizeof table, state, sizeof state, started);
    if (refused("start", started))
        return 1;
    for (int k = 0; k < 3; k++) {
        zapper_instant(table, sizeof table, state, sizeof state, handed_in[k], values, atoms, sizeof atoms / sizeof atoms[0],
                       store, sizeof store, answer);
        if (refused("instant", answer))
            return 1;
        printf("%d %d %s", k + 1, (int)answer[ZAPPER_PASSES], answer[ZAPPER_FINISHED] ? "TERM" : "STOP");
        print_events(answer + ZAPPER_EVENTS);
        print_atoms(atoms, answer[ZAPPER_ATOMS]);
        printf("\n");
        if (answer[ZAPPER_WAITS_NODE] != ZAPPER_NO_NODE)
            printf("  node %d waits for event %d\n", (int)answer[ZAPPER_WAITS_NODE], (int)answer[ZAPPER_WAITS_EVENT]);
    }
    return 0;
}
