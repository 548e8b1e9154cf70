/*
 * Inserts access units, one a file, decodes them and prints what is shown of each, in decoding order: its surface and what that
 * holds.
 *     build/play UNIT..
 * The session decodes nothing. The decoder is a function here, `decode`: it fills a surface by a sum over the bytes of a job's
 * slices and over what the surfaces hold that the job refers to. So a picture that was made of a wrong one would show, as would
 * each that is made of it.
 */
#include "cupdaisy.h"

#include <stdio.h>
#include <stdlib.h>

/* The longest text of an access unit, and a byte more, by which a longer one shows. */
enum { MOST = 4194304 + 1 };

struct host {
    cupdaisy_session session;
    uint64_t *surfaces; /* what each holds; a surface's place is the number under which the session knows it */
    uint64_t used;      /* the surfaces in front of this one were given to the session */
    uint8_t *bytes;     /* room for those of a file, or of a slice */
};

static void stop(const char *what)
{
    fprintf(stderr, "play: %s\n", what);
    exit(1);
}

static void expect(uint32_t status, const char *what)
{
    if (status != CUPDAISY_DONE)
        stop(what);
}

/* A sum (FNV-1a) with more bytes in it. */
static uint64_t mixed(uint64_t sum, const uint8_t *bytes, size_t count)
{
    for (size_t i = 0; i < count; i++)
        sum = (sum ^ bytes[i]) * 1099511628211u;
    return sum;
}

/* Decodes a job into a surface. */
static void decode(struct host *host, uint64_t job, uint64_t surface)
{
    cupdaisy_job_input input;
    uint64_t sum = 14695981039346656037u;
    expect(cupdaisy_job_input_of(&host->session, job, &input), "job");
    for (size_t slice = 0; slice < input.slices; slice++) {
        size_t count = 0;
        expect(cupdaisy_job_bytes(&host->session, job, slice, host->bytes, MOST, &count), "bytes");
        sum = mixed(sum, host->bytes, count);
    }
    for (size_t index = 0; index < input.references; index++) {
        cupdaisy_reference reference;
        expect(cupdaisy_job_reference(&host->session, job, index, &reference), "reference");
        const uint64_t held = host->surfaces[reference.surface];
        sum = mixed(sum, (const uint8_t *)&held, sizeof held);
    }
    host->surfaces[surface] = sum;
}

/* Decodes each picture that is due, and says so to the session. There is a surface for each unit, so that none is used again. */
static void decode_all(struct host *host)
{
    cupdaisy_job job;
    uint32_t status = cupdaisy_take(&host->session, &job);
    for (; status == CUPDAISY_DONE; status = cupdaisy_take(&host->session, &job)) {
        decode(host, job.number, host->used);
        expect(cupdaisy_land(&host->session, job.number, host->used), "land");
        host->used++;
    }
    if (status != CUPDAISY_NOTHING_DUE)
        stop("take");
}

static void insert_file(struct host *host, const char *path)
{
    FILE *file = fopen(path, "rb");
    if (file == NULL) {
        fprintf(stderr, "play: cannot read %s\n", path);
        exit(1);
    }
    size_t length = fread(host->bytes, 1, MOST, file);
    fclose(file);
    cupdaisy_receipt receipt;
    uint32_t status = cupdaisy_insert_last(&host->session, host->bytes, length, &receipt);
    if (status != CUPDAISY_DONE)
        fprintf(stderr, "play: %s is refused: %u\n", path, (unsigned)status);
}

static void print_unit(struct host *host, size_t place)
{
    uint32_t id = 0;
    uint64_t surface = 0;
    expect(cupdaisy_id_at(&host->session, place, &id), "id");
    uint32_t status = cupdaisy_show(&host->session, id, &surface);
    if (status == CUPDAISY_DONE)
        printf("unit %u surface %lu holds %016llx\n", (unsigned)id, (unsigned long)surface,
               (unsigned long long)host->surfaces[surface]);
    else
        printf("unit %u status %u\n", (unsigned)id, (unsigned)status);
}

int main(int count, char **words)
{
    struct host host = {CUPDAISY_NONE, (uint64_t *)calloc((size_t)count, sizeof(uint64_t)), 0, (uint8_t *)malloc(MOST)};
    size_t units = 0;
    if (host.surfaces == NULL || host.bytes == NULL)
        stop("no memory");
    expect(cupdaisy_open(&host.session, 16), "open");
    for (int i = 1; i < count; i++)
        insert_file(&host, words[i]);
    decode_all(&host);
    expect(cupdaisy_units(&host.session, &units), "units");
    for (size_t place = 0; place < units; place++)
        print_unit(&host, place);
    expect(cupdaisy_close(&host.session), "close");
    free(host.surfaces);
    free(host.bytes);
    return 0;
}
