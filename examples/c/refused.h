/* For the examples: looking at an answer before anything of it is used. */
#include <stdio.h>

#include "zapper.h"

/* Tells a refusal, and whether there was one. The numbers are those of docs/REFUSALS.md. */
static int refused(const char *what, const uint64_t *answer)
{
    if (answer[ZAPPER_NUMBER] == 0)
        return 0;
    printf("%s refused %d %d\n", what, (int)answer[ZAPPER_NUMBER], (int)answer[ZAPPER_INDEX]);
    return 1;
}
