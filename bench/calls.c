/*
 * How long calls of the C interface take: calls UNITS TURNS
 * UNITS is a file as units.h reads it. Of so many turns it prints a line each: a name, and the seconds of a processor that one
 * call took, of `show`, of an edit (another picture in the place of one), of a request of a unit and of a job, and of a job taken
 * and landed, without its requests and without anything that a decoder would do.
 */
#define _POSIX_C_SOURCE 200809L
#include "cupdaisy.h"
#include "units.h"

#include <string.h>

/* How many calls of a kind are made for one edit, and where in a period the edit is. */
enum { QUESTIONS = 1000, PERIOD = 250 };

static cupdaisy_session session = CUPDAISY_NONE;

static void expect(uint32_t status, const char *what)
{
    if (status != CUPDAISY_DONE)
        stop(what);
}

static double now(void)
{
    return seconds(CLOCK_PROCESS_CPUTIME_ID);
}

static void tell(const char *name, double begin, size_t calls)
{
    printf("%s %.9f\n", name, (now() - begin) / (double)calls);
}

static size_t settle(void)
{
    cupdaisy_job job;
    size_t jobs = 0;
    for (; cupdaisy_take(&session, &job) == CUPDAISY_DONE; jobs++)
        expect(cupdaisy_land(&session, job.number, job.number), "land");
    return jobs;
}

static void time_edits(const struct text *text, uint32_t id, size_t turns)
{
    cupdaisy_receipt receipt;
    uint8_t *other = (uint8_t *)malloc(text->length);
    if (other == NULL || text->length < 32)
        stop("no text");
    memcpy(other, text->bytes, text->length);
    double begin = now();
    for (size_t turn = 0; turn < turns; turn++) {
        other[text->length - 20] = (uint8_t)(16 + turn % 200);
        expect(cupdaisy_replace(&session, id, other, text->length, &receipt), "replace");
    }
    tell("edit", begin, turns);
    free(other);
}

static void time_questions(uint32_t units, size_t turns)
{
    uint64_t surface = 0;
    cupdaisy_request request;
    double begin = now();
    for (size_t turn = 0; turn < turns; turn++)
        expect(cupdaisy_show(&session, (uint32_t)turn % units + 1, &surface), "show");
    tell("show", begin, turns);
    begin = now();
    for (size_t turn = 0; turn < turns; turn++)
        expect(cupdaisy_unit_request(&session, (uint32_t)turn % units + 1, 0, &request), "request of a unit");
    tell("unit_request", begin, turns);
}

/* The requests of a job that is out. */
static void time_job(size_t turns)
{
    cupdaisy_job job;
    cupdaisy_request request;
    expect(cupdaisy_take(&session, &job), "take");
    double begin = now();
    for (size_t turn = 0; turn < turns; turn++)
        expect(cupdaisy_job_request(&session, job.number, 0, &request), "request of a job");
    tell("job_request", begin, turns);
    expect(cupdaisy_give_back(&session, job.number), "give back");
}

int main(int count, char **words)
{
    if (count != 3)
        stop("calls UNITS TURNS");
    struct units units = read_units(words[1]);
    size_t turns = strtoul(words[2], NULL, 10);
    size_t edited = units.count / 2 / PERIOD * PERIOD + PERIOD / 2;
    cupdaisy_receipt receipt;
    if (turns == 0 || edited >= units.count)
        stop("wrong numbers");
    expect(cupdaisy_open(&session, 64), "open");
    for (size_t i = 0; i < units.count; i++)
        expect(cupdaisy_insert_last(&session, units.texts[i].bytes, units.texts[i].length, &receipt), "insert");
    double begin = now();
    size_t jobs = settle();
    tell("job", begin, jobs);
    time_questions((uint32_t)units.count, QUESTIONS * turns);
    time_edits(&units.texts[edited], (uint32_t)edited + 1, turns);
    time_job(QUESTIONS * turns);
    expect(cupdaisy_close(&session), "close");
    return 0;
}
