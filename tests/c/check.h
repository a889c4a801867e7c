/* What the tests count: things that were looked at, and things that were not as they should be. */
#ifndef CHECK_H
#define CHECK_H

extern unsigned long checks, failures;

/* Counts, and prints the first failures. */
void expect(int fine, const char *format, ...) __attribute__((format(printf, 2, 3)));

#endif
