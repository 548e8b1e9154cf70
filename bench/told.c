/*
 * What it takes to be told of doubt, to mark, and to edit, in a long stream.
 *     told UNITS EDITS
 * UNITS is a file as units.h reads it. All of it is appended to a session. Then the doubts of the last 60 units are asked for, as
 * the stream is and with the second unit taken away, the stream is marked, and the unit in front of the last one is replaced so many
 * times. It prints seconds of processors: of the questions, one each, of a mark, and of all edits; and how many of the last units were
 * in doubt.
 */
#define _POSIX_C_SOURCE 200809L
#include "cupdaisy.h"
#include "units.h"

#include <stdbool.h>

enum { ASKED = 60, TIMES = 20 };

static void expect(uint32_t status, const char *what)
{
    if (status != CUPDAISY_DONE)
        stop(what);
}

/* Seconds of a processor for one question, and how many of the units asked for are in doubt. */
static double asked(cupdaisy_session *session, size_t units, unsigned *in_doubt)
{
    cupdaisy_doubt doubts[ASKED];
    size_t count = 0;
    double begin = seconds(CLOCK_PROCESS_CPUTIME_ID);
    for (int turn = 0; turn < TIMES; turn++)
        expect(cupdaisy_doubts(session, units - ASKED, doubts, ASKED, &count), "doubts");
    double took = (seconds(CLOCK_PROCESS_CPUTIME_ID) - begin) / TIMES;
    *in_doubt = 0;
    for (size_t i = 0; i < count; i++)
        *in_doubt += doubts[i].in_doubt != 0;
    return took;
}

/* Seconds of a processor for a mark. */
static double marked(cupdaisy_session *session)
{
    double begin = seconds(CLOCK_PROCESS_CPUTIME_ID);
    for (int turn = 0; turn < TIMES; turn++)
        expect(cupdaisy_mark(session), "mark");
    return (seconds(CLOCK_PROCESS_CPUTIME_ID) - begin) / TIMES;
}

int main(int count, char **words)
{
    if (count != 3)
        stop("told UNITS EDITS");
    struct units units = read_units(words[1]);
    size_t edits = strtoul(words[2], NULL, 10);
    static cupdaisy_session session;
    cupdaisy_receipt receipt;
    unsigned sound = 0;
    unsigned damaged = 0;
    if (units.count < ASKED + 4)
        stop("too few units");
    expect(cupdaisy_open(&session, 64), "open");
    for (size_t i = 0; i < units.count; i++)
        expect(cupdaisy_insert_last(&session, units.texts[i].bytes, units.texts[i].length, &receipt), "insert");
    double whole = asked(&session, units.count, &sound);
    double marking = marked(&session);
    struct text text = units.texts[units.count - 2];
    double begin = seconds(CLOCK_PROCESS_CPUTIME_ID);
    for (size_t turn = 0; turn < edits; turn++)
        expect(cupdaisy_replace(&session, (uint32_t)units.count - 1, text.bytes, text.length, &receipt), "replace");
    double editing = seconds(CLOCK_PROCESS_CPUTIME_ID) - begin;
    expect(cupdaisy_delete(&session, 2, &receipt), "delete");
    double broken = asked(&session, units.count - 1, &damaged);
    printf("%.9f %.9f %.9f %.9f %u %u\n", whole, broken, marking, editing, sound, damaged);
    cupdaisy_close(&session);
    return 0;
}
