/*
 * Mends a file: `mend FILE >OUT` writes what `preview mend` writes, and says on the standard error what is left out, by the names of the
 * reasons.
 */
#include "cupdaisy.h"
#include "file.h"

enum { ROOM = 1000 };

static void tell(const cupdaisy_left_out *left_out)
{
    uint8_t name[64];
    size_t length = 0;
    cupdaisy_why_name(left_out->why, name, sizeof name, &length);
    fprintf(stderr, "byte %llu: %llu bytes: %.*s\n", (unsigned long long)left_out->byte, (unsigned long long)left_out->bytes,
            (int)length, (const char *)name);
}

/* Writes what stays of the text; the status of the call that mends it. */
static uint32_t mend(const uint8_t *text, size_t length)
{
    static cupdaisy_left_out left_out[ROOM];
    size_t count = 0;
    size_t capacity = length / 4 * 9 + 9;
    uint8_t *bytes = (uint8_t *)malloc(capacity);
    if (bytes == NULL)
        return CUPDAISY_MEMORY;
    uint32_t status = cupdaisy_mend(text, length, bytes, capacity, &length, left_out, ROOM, &count);
    if (status == CUPDAISY_DONE) {
        for (size_t i = 0; i < count && i < ROOM; i++)
            tell(&left_out[i]);
        if (count > ROOM)
            fprintf(stderr, "and %zu more\n", count - ROOM);
        fwrite(bytes, 1, length, stdout);
    }
    free(bytes);
    return status;
}

int main(int count, char **words)
{
    size_t length = 0;
    uint8_t *text = count == 2 ? whole_file(words[1], &length) : NULL;
    if (text == NULL) {
        fprintf(stderr, "usage: mend FILE >OUT, of a file that can be read\n");
        return 2;
    }
    uint32_t status = mend(text, length);
    free(text);
    return status != CUPDAISY_DONE || fflush(stdout) != 0;
}
