/* Prints the text of every refusal number as docs/GUIDE.md lists them, one row of its table a line. */
#include "kanzhulet.h"
#include <stdio.h>
#include <string.h>

int main(void)
{
    const char *none = kz_message(~(uint32_t)0); /* of all numbers that are no refusal's */
    uint32_t number;
    for (number = 0; number <= KZ_ONE_BODY; number++)
        if (strcmp(kz_message(number), none) != 0)
            printf("| %u | %s |\n", (unsigned)number, kz_message(number));
    return 0;
}
