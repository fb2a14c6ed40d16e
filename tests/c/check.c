#include "check.h"
#include <stdarg.h>
#include <stdio.h>

/* Of one fault that fails every check of a kind, the first lines say enough. */
enum { LINES = 20 };

static const char *words;
static unsigned long made, failed, made_before, failed_before;

static void end_group(void)
{
    if (words)
        printf("%s: %lu checks, %lu failed\n", words, made - made_before, failed - failed_before);
    made_before = made;
    failed_before = failed;
}

void group(const char *next)
{
    end_group();
    words = next;
}

int check(int holds, const char *why, ...)
{
    made++;
    if (holds)
        return 1;
    failed++;
    if (failed - failed_before <= LINES) {
        va_list rest;
        va_start(rest, why);
        printf("    FAILED: ");
        vprintf(why, rest);
        printf("\n");
        va_end(rest);
    }
    return 0;
}

int ended(void)
{
    end_group();
    printf("%lu passed, %lu failed\n", made - failed, failed);
    return made == 0 || failed != 0;
}
