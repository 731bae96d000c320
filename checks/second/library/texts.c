/* Prints each number that has a text, a tab and the text, in order. */
#include "tufcheck.h"

#include <stdio.h>
#include <string.h>

static void print(int32_t number)
{
    const char *text = tufcheck_text(number);
    if (strcmp(text, "unknown number") != 0)
        printf("%ld\t%s\n", (long)number, text);
}

int main(void)
{
    print(INT32_MIN);
    for (int32_t number = -70000; number <= 70000; number++)
        print(number);
    print(INT32_MAX);
    return 0;
}
