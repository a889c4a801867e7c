#include "check.h"
#include <stdarg.h>
#include <stdio.h>

enum { MOST_PRINTED = 20 };

unsigned long checks, failures;

void expect(int fine, const char *format, ...)
{
    checks++;
    if (fine)
        return;
    failures++;
    if (failures > MOST_PRINTED)
        return;
    va_list values;
    va_start(values, format);
    fputs("failed: ", stdout);
    vprintf(format, values);
    fputs("\n", stdout);
    va_end(values);
}
