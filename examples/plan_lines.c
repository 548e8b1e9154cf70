/*
 * Prints what `preview plan FILE` prints, through the C interface:
 *     build/plan_lines FILE
 * FILE is - for standard input. docs/OUTPUT.md has the lines.
 *
 * Exit status: 0; 1 where the stream is refused, which is printed, and with a message where the file can't be read or memory
 * is short; 1 too where the output can't be written; 2 for wrong words.
 */
#include "cupdaisy.h"
#include "file.h"

#include <inttypes.h>
#include <stdbool.h>
#include <stdio.h>
#include <stdlib.h>
#include <string.h>

/* A call that writes the name of a number. */
typedef uint32_t name_call(uint32_t number, uint8_t *name, size_t name_length, size_t *needed);

/* Ends the program where a call that has to succeed doesn't. */
static void stop_unless_done(uint32_t status)
{
    if (status == CUPDAISY_DONE)
        return;
    if (status == CUPDAISY_MEMORY)
        fprintf(stderr, "out of memory\n");
    else
        fprintf(stderr, "plan_lines: a call answers %" PRIu32 "\n", status);
    exit(1);
}

/* Prints a number and its name. */
static void print_named(uint32_t number, name_call *name_of)
{
    uint8_t name[64];
    size_t length = 0;
    stop_unless_done(name_of(number, name, sizeof name, &length));
    printf("%" PRIu32 " %.*s\n", number, (int)length, (const char *)name);
}

/* Prints the frames that a picture may refer to. */
static void print_frames(const struct v4l2_ctrl_h264_decode_params *params)
{
    bool is_first = true;
    for (size_t i = 0; i < V4L2_H264_NUM_DPB_ENTRIES; i++) {
        const struct v4l2_h264_dpb_entry *entry = &params->dpb[i];
        if ((entry->flags & V4L2_H264_DPB_ENTRY_FLAG_VALID) == 0)
            continue;
        printf("%s%" PRIu64 ":%" PRId32 ":%" PRIu32, is_first ? "" : ",", (uint64_t)entry->reference_ts,
               (int32_t)entry->pic_num, (uint32_t)entry->flags);
        is_first = false;
    }
    if (is_first)
        printf("-");
}

/* Prints the first entries of a reference picture list. An entry without fields is missing. */
static void print_list(const struct v4l2_h264_reference *list, unsigned count)
{
    for (unsigned i = 0; i < count; i++) {
        printf("%s", i == 0 ? "" : ",");
        if (list[i].fields == 0)
            printf("x");
        else
            printf("%u", (unsigned)list[i].index);
    }
    if (count == 0)
        printf("-");
}

/* Prints the line of a slice's request. */
static void print_slice(uint32_t id, size_t slice, const cupdaisy_request *request)
{
    const struct v4l2_ctrl_h264_slice_params *params = &request->slice_params;
    bool has_list0 = params->slice_type != V4L2_H264_SLICE_TYPE_I;
    bool has_list1 = params->slice_type == V4L2_H264_SLICE_TYPE_B;
    printf("request %" PRIu32 ".%lu ts %" PRIu64 " bits %" PRIu32 " type %u frame %u dpb ", id, (unsigned long)slice,
           request->timestamp, (uint32_t)params->header_bit_size, (unsigned)params->slice_type,
           (unsigned)request->decode_params.frame_num);
    print_frames(&request->decode_params);
    printf(" l0 ");
    print_list(params->ref_pic_list0, has_list0 ? params->num_ref_idx_l0_active_minus1 + 1u : 0);
    printf(" l1 ");
    print_list(params->ref_pic_list1, has_list1 ? params->num_ref_idx_l1_active_minus1 + 1u : 0);
    printf(" hold %" PRIu32 "\n", request->hold);
}

/* Prints the lines of a valid unit. */
static void print_plan(cupdaisy_session *session, uint32_t id, const cupdaisy_outcome *outcome)
{
    size_t position = 0;
    stop_unless_done(cupdaisy_position(session, id, &position));
    printf("unit %" PRIu32 " position %lu counts %" PRId32 " %" PRId32 " requests %" PRIu64 "\n", id,
           (unsigned long)position, outcome->top, outcome->bottom, outcome->slices);
    for (size_t slice = 0; slice < outcome->slices; slice++) {
        cupdaisy_request request;
        stop_unless_done(cupdaisy_unit_request(session, id, slice, &request));
        print_slice(id, slice, &request);
    }
}

static void print_unit(cupdaisy_session *session, uint32_t id)
{
    cupdaisy_outcome outcome;
    stop_unless_done(cupdaisy_outcome_of(session, id, &outcome));
    if (outcome.kind == CUPDAISY_PLAN) {
        print_plan(session, id, &outcome);
    } else if (outcome.kind == CUPDAISY_FAULT) {
        printf("unit %" PRIu32 " fault ", id);
        print_named(outcome.fault, cupdaisy_fault_name);
    } else {
        printf("unit %" PRIu32 " no picture\n", id);
    }
}

static void print_stream(cupdaisy_session *session)
{
    size_t units = 0;
    stop_unless_done(cupdaisy_units(session, &units));
    for (size_t place = 0; place < units; place++) {
        uint32_t id = 0;
        stop_unless_done(cupdaisy_id_at(session, place, &id));
        print_unit(session, id);
    }
}

/* Prints why a stream is refused: itself, by 1 or 17, or one of its access units. */
static void print_refusal(uint32_t status, uint64_t index)
{
    if (status != 1 && status != 17)
        printf("unit %" PRIu64 " ", index);
    printf("refused ");
    print_named(status, cupdaisy_status_name);
}

int main(int count, char **words)
{
    if (count != 2) {
        fprintf(stderr, "usage: plan_lines FILE\n");
        return 2;
    }
    size_t length = 0;
    uint8_t *text = whole_file(strcmp(words[1], "-") == 0 ? "/dev/stdin" : words[1], &length);
    if (text == NULL) {
        fprintf(stderr, "cannot read %s\n", words[1]);
        return 1;
    }
    cupdaisy_session session = CUPDAISY_NONE;
    cupdaisy_load_receipt receipt;
    stop_unless_done(cupdaisy_open(&session, 1));
    uint32_t status = cupdaisy_load(&session, text, length, &receipt);
    free(text);
    if (status == CUPDAISY_MEMORY)
        stop_unless_done(status);
    if (status == CUPDAISY_DONE)
        print_stream(&session);
    else
        print_refusal(status, receipt.index);
    cupdaisy_close(&session);
    bool is_written = fflush(stdout) == 0 && !ferror(stdout);
    return status == CUPDAISY_DONE && is_written ? 0 : 1;
}
