/*
 * Many sessions side by side in one process: what they take to fill, of memory, and how fast they are edited.
 *     many UNITS SESSIONS EDITS THREADS
 * UNITS is a file as units.h reads it. Each of so many threads has its part of the sessions, fills each with all units, and then
 * edits them in turn, so many edits a session: a picture in the middle of a period gets another byte near its end, after which the
 * pictures up to the next IDR picture are made of something else.
 * It prints numbers, parted by spaces: units, bytes of a stream, bytes of an edit, seconds of processors to fill, bytes of memory
 * before, with all sessions, and after the edits, seconds of processors for the edits, seconds by the clock for these, edits, shows
 * a second of a processor, files that are open, bytes of memory once all are closed and malloc_trim was called.
 */
#define _POSIX_C_SOURCE 200809L
#include "cupdaisy.h"
#include "units.h"

#include <dirent.h>
#include <malloc.h>
#include <pthread.h>
#include <string.h>
#include <unistd.h>

enum { MOST_THREADS = 64, SHOWS = 200000, PERIOD = 250 };

struct part {
    pthread_t thread;
    const struct units *units;
    cupdaisy_session *sessions;
    size_t count;
    size_t edits;
    bool fills;
};

static void expect(uint32_t status, const char *what)
{
    if (status != CUPDAISY_DONE)
        stop(what);
}

static void fill(const struct units *units, cupdaisy_session *session)
{
    cupdaisy_receipt receipt;
    expect(cupdaisy_open(session, 64), "open");
    for (size_t i = 0; i < units->count; i++)
        expect(cupdaisy_insert_last(session, units->texts[i].bytes, units->texts[i].length, &receipt), "insert");
}

/* The place of the unit that is edited. */
static size_t edited(const struct units *units)
{
    return units->count / 2 / PERIOD * PERIOD + PERIOD / 2;
}

static void edit(const struct units *units, cupdaisy_session *session, size_t turn)
{
    size_t middle = edited(units);
    size_t length = units->texts[middle].length;
    uint8_t *text = (uint8_t *)malloc(length);
    cupdaisy_receipt receipt;
    if (text == NULL || length < 32)
        stop("no text");
    memcpy(text, units->texts[middle].bytes, length);
    text[length - 20] = (uint8_t)(16 + turn % 200);
    expect(cupdaisy_replace(session, (uint32_t)middle + 1, text, length, &receipt), "replace");
    free(text);
}

static void *work(void *given)
{
    struct part *part = (struct part *)given;
    for (size_t i = 0; part->fills && i < part->count; i++)
        fill(part->units, &part->sessions[i]);
    for (size_t turn = 0; !part->fills && turn < part->edits; turn++)
        for (size_t i = 0; i < part->count; i++)
            edit(part->units, &part->sessions[i], turn);
    return NULL;
}

/* Has each thread do its part. */
static void share(struct part *parts, size_t threads, bool fills)
{
    for (size_t i = 0; i < threads; i++) {
        parts[i].fills = fills;
        if (pthread_create(&parts[i].thread, NULL, work, &parts[i]) != 0)
            stop("no thread");
    }
    for (size_t i = 0; i < threads; i++)
        if (pthread_join(parts[i].thread, NULL) != 0)
            stop("no thread");
}

/* The bytes of memory that the process holds now. */
static double memory(void)
{
    unsigned long all = 0;
    unsigned long resident = 0;
    FILE *file = fopen("/proc/self/statm", "r");
    if (file == NULL || fscanf(file, "%lu %lu", &all, &resident) != 2)
        stop("cannot read statm");
    fclose(file);
    return (double)resident * (double)sysconf(_SC_PAGESIZE);
}

static unsigned open_files(void)
{
    unsigned count = 0;
    DIR *folder = opendir("/proc/self/fd");
    if (folder == NULL)
        stop("cannot read fd");
    while (readdir(folder) != NULL)
        count++;
    closedir(folder);
    return count - 3; /* but for . and .. and the folder itself */
}

static double shows_a_second(cupdaisy_session *session, size_t units)
{
    cupdaisy_job job;
    uint64_t surface = 0;
    while (cupdaisy_take(session, &job) == CUPDAISY_DONE)
        expect(cupdaisy_land(session, job.number, job.number), "land");
    double begin = seconds(CLOCK_PROCESS_CPUTIME_ID);
    for (uint32_t i = 0; i < SHOWS; i++)
        expect(cupdaisy_show(session, i % (uint32_t)units + 1, &surface), "show");
    return SHOWS / (seconds(CLOCK_PROCESS_CPUTIME_ID) - begin);
}

int main(int count, char **words)
{
    if (count != 5)
        stop("many UNITS SESSIONS EDITS THREADS");
    struct units units = read_units(words[1]);
    size_t sessions = strtoul(words[2], NULL, 10);
    size_t edits = strtoul(words[3], NULL, 10);
    size_t threads = strtoul(words[4], NULL, 10);
    static struct part parts[MOST_THREADS];
    cupdaisy_session *handles = (cupdaisy_session *)calloc(sessions, sizeof *handles);
    if (handles == NULL || threads < 1 || threads > MOST_THREADS || threads > sessions)
        stop("wrong numbers");
    size_t bytes = 0;
    for (size_t i = 0; i < units.count; i++)
        bytes += units.texts[i].length;
    for (size_t i = 0; i < threads; i++) {
        size_t first = sessions * i / threads;
        parts[i].units = &units;
        parts[i].sessions = handles + first;
        parts[i].count = sessions * (i + 1) / threads - first;
        parts[i].edits = edits;
    }
    double before = memory();
    double begin = seconds(CLOCK_PROCESS_CPUTIME_ID);
    share(parts, threads, true);
    double filled = seconds(CLOCK_PROCESS_CPUTIME_ID);
    double with = memory();
    double clock = seconds(CLOCK_MONOTONIC);
    share(parts, threads, false);
    double done = seconds(CLOCK_PROCESS_CPUTIME_ID);
    double after = memory();
    clock = seconds(CLOCK_MONOTONIC) - clock;
    unsigned files = open_files();
    double shows = shows_a_second(&handles[0], units.count);
    for (size_t i = 0; i < sessions; i++)
        expect(cupdaisy_close(&handles[i]), "close");
    malloc_trim(0);
    printf("%lu %lu %lu %.4f %.0f %.0f %.0f %.4f %.4f %lu %.0f %u %.0f\n", (unsigned long)units.count, (unsigned long)bytes,
           (unsigned long)units.texts[edited(&units)].length, filled - begin, before, with, after, done - filled, clock,
           (unsigned long)(sessions * edits), shows, files, memory());
    return 0;
}
