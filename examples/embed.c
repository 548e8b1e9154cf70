/*
 * A stream is loaded, decoded by a decoder of the program's own, shown, and edited. docs/EMBEDDING.md has the same in other languages.
 *     build/embed FILE
 */
#include "cupdaisy.h"
#include "file.h"

#include <inttypes.h>

/* A decoder's surfaces: here numbers in the place of pictures. Those in front of `used` were given to the session. */
enum { SURFACES = 65536 };
static uint32_t surfaces[SURFACES];
static uint64_t used, released[SURFACES];

static void expect(uint32_t status)
{
    if (status == CUPDAISY_DONE)
        return;
    fprintf(stderr, "embed: a call answers %" PRIu32 "\n", status);
    exit(1);
}

/* Mixes a number into a sum (FNV-1a). */
static uint32_t mixed(uint32_t sum, uint32_t number)
{
    return (sum ^ number) * UINT32_C(0x01000193);
}

/* What the decoder makes of the surfaces that a job refers to, and of its bytes. */
static uint32_t decode(cupdaisy_session *session, uint64_t job)
{
    static uint8_t bytes[4194304];
    cupdaisy_job_input input;
    cupdaisy_reference reference;
    uint32_t picture = 0;
    expect(cupdaisy_job_input_of(session, job, &input));
    for (size_t index = 0; index < input.references; index++) {
        expect(cupdaisy_job_reference(session, job, index, &reference));
        picture = mixed(picture, surfaces[reference.surface]);
    }
    for (size_t slice = 0; slice < input.slices; slice++) {
        size_t length = 0;
        expect(cupdaisy_job_bytes(session, job, slice, bytes, sizeof bytes, &length));
        for (size_t i = 0; i < length; i++)
            picture = mixed(picture, bytes[i]);
    }
    return picture;
}

/* Decodes what is missing, and shows all in output order. */
static void play(cupdaisy_session *session)
{
    cupdaisy_job job;
    uint64_t surface = 0;
    uint32_t id = 0, sum = 0;
    unsigned decoded = 0, shown = 0;
    while (cupdaisy_take(session, &job) == CUPDAISY_DONE) {
        surfaces[used % SURFACES] = decode(session, job.number);
        expect(cupdaisy_land(session, job.number, used++ % SURFACES));
        decoded++;
    }
    for (size_t position = 0; cupdaisy_unit_at(session, position, &id) == CUPDAISY_DONE; position++) {
        if (cupdaisy_show(session, id, &surface) != CUPDAISY_DONE)
            continue;
        sum = mixed(sum, surfaces[surface]);
        shown++;
    }
    printf("decoded %u, shown %u, together %08" PRIx32 "\n", decoded, shown, sum);
}

int main(int count, char **words)
{
    cupdaisy_session session = CUPDAISY_NONE;
    cupdaisy_load_receipt loaded;
    cupdaisy_receipt deleted;
    size_t length = 0, back = 0;
    uint8_t *text = count == 2 ? whole_file(words[1], &length) : NULL;
    if (text == NULL) {
        fprintf(stderr, "usage: embed FILE\n");
        return 1;
    }
    expect(cupdaisy_open(&session, 4));
    expect(cupdaisy_load(&session, text, length, &loaded));
    free(text);
    play(&session);
    expect(cupdaisy_delete(&session, 12, &deleted));
    play(&session);
    expect(cupdaisy_released(&session, released, SURFACES, &back));
    printf("given back %lu\n", (unsigned long)back);
    return cupdaisy_close(&session) == CUPDAISY_DONE ? 0 : 1;
}
