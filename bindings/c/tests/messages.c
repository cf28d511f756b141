/* Every answer that has a text of its own, one to a line: number, a tab, text. scripts/test-messages.py compares them with README.md. */
#include <stdio.h>
#include <string.h>

#include "lindenscoop.h"

int main(void)
{
    for (uint32_t answer = 0; answer < 1000; answer++)
        if (strcmp(lindenscoop_message(answer), lindenscoop_message(UINT32_MAX)) != 0)
            printf("%u\t%s\n", (unsigned)answer, lindenscoop_message(answer));
    return 0;
}
