/* The texts of a stream's units, from a file that has each behind its length of four bytes, the lowest first. */
#ifndef UNITS_H
#define UNITS_H

#include "../examples/file.h"

#include <time.h>

struct text {
    const uint8_t *bytes;
    size_t length;
};

struct units {
    struct text *texts;
    size_t count;
};

static void stop(const char *what)
{
    fprintf(stderr, "%s\n", what);
    exit(1);
}

static struct units read_units(const char *path)
{
    size_t length = 0;
    const uint8_t *file = whole_file(path, &length);
    struct units units = {(struct text *)calloc(length / 4 + 1, sizeof(struct text)), 0};
    if (file == NULL || units.texts == NULL)
        stop("cannot read the units");
    for (size_t at = 0; at + 4 <= length; units.count++) {
        struct text *text = &units.texts[units.count];
        text->length = (size_t)file[at] | (size_t)file[at + 1] << 8 | (size_t)file[at + 2] << 16 | (size_t)file[at + 3] << 24;
        text->bytes = file + at + 4;
        at += 4 + text->length;
    }
    return units;
}

/* Seconds by a clock: those of the process's processors, or those that go by. */
static double seconds(clockid_t clock)
{
    struct timespec now;
    if (clock_gettime(clock, &now) != 0)
        stop("no clock");
    return (double)now.tv_sec + (double)now.tv_nsec / 1e9;
}

#endif
