/*
 * Loads a stream and prints the controls of each slice of each valid unit, in decoding order, as the kernel's structs:
 *     build/print_requests FILE
 * A line `unit ID slice S NAME HEX` has the bytes of one struct as they lie in memory. NAME is sps, pps, scaling_matrix,
 * pred_weights (only of a slice with a weight table), slice_params or decode_params. tools/compare-requests reads this.
 *
 * Exit status: 0; 1 with a message if the file can't be read, the stream is refused or memory is short; 2 for wrong words.
 */
#include "cupdaisy.h"
#include "file.h"

#include <stdio.h>
#include <stdlib.h>

static void fail(const char *what, uint32_t status)
{
    uint8_t name[64];
    size_t length = 0;
    if (cupdaisy_status_name(status, name, sizeof name, &length) != CUPDAISY_DONE)
        length = 0;
    fprintf(stderr, "print_requests: %s: %u %.*s\n", what, (unsigned)status, (int)length, (const char *)name);
    exit(1);
}

static void print_struct(uint32_t id, size_t slice, const char *name, const void *bytes, size_t size)
{
    const unsigned char *byte = (const unsigned char *)bytes;
    printf("unit %u slice %lu %s ", (unsigned)id, (unsigned long)slice, name);
    for (size_t i = 0; i < size; i++)
        printf("%02x", (unsigned)byte[i]);
    printf("\n");
}

static void print_slice(cupdaisy_session *session, uint32_t id, size_t slice)
{
    cupdaisy_request request;
    struct v4l2_ctrl_h264_pred_weights weights;
    uint32_t status = cupdaisy_unit_request(session, id, slice, &request);
    if (status != CUPDAISY_DONE)
        fail("request", status);
    print_struct(id, slice, "sps", &request.sps, sizeof request.sps);
    print_struct(id, slice, "pps", &request.pps, sizeof request.pps);
    print_struct(id, slice, "scaling_matrix", &request.scaling_matrix, sizeof request.scaling_matrix);
    status = cupdaisy_unit_weights(session, id, slice, &weights);
    if (status != (request.has_weights == 1 ? CUPDAISY_DONE : CUPDAISY_NO_WEIGHTS))
        fail("weights", status);
    if (status == CUPDAISY_DONE)
        print_struct(id, slice, "pred_weights", &weights, sizeof weights);
    print_struct(id, slice, "slice_params", &request.slice_params, sizeof request.slice_params);
    print_struct(id, slice, "decode_params", &request.decode_params, sizeof request.decode_params);
}

static void print_stream(cupdaisy_session *session)
{
    size_t units = 0;
    uint32_t status = cupdaisy_units(session, &units);
    for (size_t place = 0; status == CUPDAISY_DONE && place < units; place++) {
        uint32_t id = 0;
        cupdaisy_outcome outcome;
        status = cupdaisy_id_at(session, place, &id);
        if (status == CUPDAISY_DONE)
            status = cupdaisy_outcome_of(session, id, &outcome);
        /* A unit that isn't valid has no slices. */
        for (size_t slice = 0; status == CUPDAISY_DONE && slice < outcome.slices; slice++)
            print_slice(session, id, slice);
    }
    if (status != CUPDAISY_DONE)
        fail("stream", status);
}

int main(int count, char **words)
{
    if (count != 2) {
        fprintf(stderr, "usage: print_requests FILE\n");
        return 2;
    }
    size_t length = 0;
    uint8_t *text = whole_file(words[1], &length);
    if (text == NULL) {
        fprintf(stderr, "print_requests: cannot read %s\n", words[1]);
        return 1;
    }
    cupdaisy_session session = CUPDAISY_NONE;
    uint32_t status = cupdaisy_open(&session, 64);
    if (status != CUPDAISY_DONE)
        fail("open", status);
    cupdaisy_load_receipt receipt;
    status = cupdaisy_load(&session, text, length, &receipt);
    free(text);
    if (status != CUPDAISY_DONE)
        fail("load", status);
    print_stream(&session);
    cupdaisy_close(&session);
    return fflush(stdout) == 0 && !ferror(stdout) ? 0 : 1;
}
