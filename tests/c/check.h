/* Checks: counted, and on a failure told with file, line and what differed. */
#ifndef CHECK_H
#define CHECK_H

#include <inttypes.h>
#include <stdarg.h>
#include <stdbool.h>
#include <stdint.h>
#include <stdio.h>
#include <stdlib.h>

enum { REPORTS = 20 }; /* after so many failures the test gives up: more would bury the first */

struct where {
    const char *file;
    int line;
};
#define HERE ((struct where){__FILE__, __LINE__})

static unsigned long checks, failed;
static char trying[200]; /* what is tried just now, for the report */

static void now_trying(const char *format, ...)
{
    va_list values;
    va_start(values, format);
    vsnprintf(trying, sizeof trying, format, values);
    va_end(values);
}

/* How the test ends. */
static void end(void)
{
    printf("the C door: %lu checks, %lu failed\n", checks, failed);
    exit(failed > 0);
}

/* One check. True if it fails: then the caller tells how. */
static bool fails(struct where at, bool holds)
{
    if (failed == REPORTS)
        end();
    checks += 1;
    failed += !holds;
    if (!holds)
        printf("%s:%d: %s: ", at.file, at.line, trying);
    return !holds;
}

static void check_number(struct where at, const char *what, uint64_t expected, uint64_t came)
{
    if (fails(at, expected == came))
        printf("%s: expected %" PRIu64 ", came %" PRIu64 "\n", what, expected, came);
}

/* Every byte; a failure tells of the first that differs. `first` is the number of the first byte, for the report. */
static void check_bytes(struct where at, const char *what, const uint8_t *expected, const uint8_t *came, size_t length,
                        long first)
{
    size_t same = 0;
    while (same < length && expected[same] == came[same])
        same += 1;
    if (fails(at, same == length))
        printf("%s: byte %ld: expected %02x, came %02x\n", what, first + (long)same, expected[same], came[same]);
}

static void *memory_for(size_t bytes)
{
    void *memory = malloc(bytes);
    if (memory == NULL) {
        fputs("the test has no memory\n", stderr);
        exit(2);
    }
    return memory;
}

#endif
