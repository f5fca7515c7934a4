/* Reads the program P of 01 in written form, checks its table and prints it back; then reads a text in which a comma is missing, which must be
 * refused. Every answer is looked at before anything of it is used; one that isn't as expected ends the program with status 1. */
#include <string.h>

#include "refused.h"

int main(void)
{
    static const char p[] = "Jr.Par(Jr.Seq(Jr.Await(0), Jr.Atom(7), Jr.Generate(1)), Jr.Await(1))";
    static const char no_comma[] = "Jr.Par(Jr.Seq(Jr.Await(0) Jr.Atom(7), Jr.Generate(1)), Jr.Await(1))";
    uint8_t table[100], text[100];
    uint64_t read[ZAPPER_TEXT_PLACES], checked[ZAPPER_CHECK_PLACES], printed[ZAPPER_TEXT_PLACES];

    zapper_read((const uint8_t *)p, strlen(p), table, sizeof table, read);
    if (refused("text", read))
        return 1;
    size_t length = read[ZAPPER_LENGTH];
    printf("a table of %d bytes\n", (int)length);

    zapper_check(table, length, checked);
    if (refused("table", checked))
        return 1;
    printf("generations %d, atoms %d, weight %d\n", (int)checked[ZAPPER_GENERATIONS], (int)checked[ZAPPER_MOST_ATOMS], (int)checked[ZAPPER_WEIGHT]);

    zapper_print(table, length, text, sizeof text, printed);
    if (refused("table", printed))
        return 1;
    printf("%.*s\n", (int)printed[ZAPPER_LENGTH], (const char *)text);

    zapper_read((const uint8_t *)no_comma, strlen(no_comma), table, sizeof table, read);
    return refused("text", read) ? 0 : 1;
}
