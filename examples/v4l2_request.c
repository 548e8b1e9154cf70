/*
 * Plays a stream by a stateless decoder of Linux: for each picture in output order the jobs that it needs, and for each job the
 * calls of the driver's interface.
 *     build/v4l2_request FILE [--frame-based] [--no-start-code] [--requests N] [--video DEVICE --media DEVICE]
 * DEVICE is as /dev/video0 and /dev/media0; without both each call is printed in place of being made. A driver says by the
 * menus of its controls decode_mode and start_code which options it wants; most want --frame-based, with start codes. N is how
 * many requests may be in flight, 1 to 16; it is 1 where it isn't given.
 *
 * Shown here of what a host has to know:
 *   - the session knows surfaces by numbers of the host's, here the indices of CAPTURE buffers. It has a surface from `land` on
 *     until it gives it back; where a job's result is stale, the surface is the host's still.
 *   - a unit keeps its id when it is replaced, and a surface its timestamp while it is queued anew. So each decode has a
 *     timestamp of its own, and reference_ts is rewritten: the job tells the surface behind each timestamp of the controls, and
 *     the host knows when that was decoded.
 *   - a valid entry of the decoded picture buffer that no list names gets the time of its surface too, as long as there is one.
 *     Some drivers number their frames by all valid entries: to them an entry without a surface is a frame that is gone.
 *   - a request a slice, with the CAPTURE buffer held but for the last; or a request a picture.
 *   - the slices' bytes with their start codes or without. Without them a request for a picture has one slice.
 *   - with several requests in flight, the pictures that later units need are decoded too, as soon as what they refer to is
 *     there; a surface isn't used again while a job that is out refers to it.
 *   - there are fewer surfaces than pictures. A host takes jobs for what it shows next alone. When it needs a surface for another
 *     picture, it takes back what edits let go, then what is cached, and then drops a picture: first those that are in no decoded
 *     picture buffer any more.
 *   - where the pictures' size or depth changes, the queues are stopped and their buffers made anew.
 *
 * Exit status: 0; 1 with a message where the file, the session or the device fails; 2 for wrong words; 3 with a message where
 * pictures weren't shown, as a request for a whole picture can't say what one has that they need: slices under several picture
 * parameter sets, or several slices without start codes.
 */
#define _POSIX_C_SOURCE 200809L

#include "cupdaisy.h"
#include "file.h"
#include "v4l2_surfaces.h"

#include <stdio.h>
#include <stdlib.h>
#include <string.h>

/* The controls that each request has. The matrices are sent to each driver that has them. */
static uint32_t add_picture(const struct host *host, struct v4l2_ext_control *controls, struct v4l2_ctrl_h264_sps *sps,
                            struct v4l2_ctrl_h264_pps *pps, struct v4l2_ctrl_h264_scaling_matrix *matrix,
                            struct v4l2_ctrl_h264_decode_params *params)
{
    uint32_t count = 0;
    if (!host->driver.has_matrices && (pps->flags & V4L2_H264_PPS_FLAG_SCALING_MATRIX_PRESENT) != 0)
        stop("the stream has scaling matrices, and the device has no control for them");
    add(controls, &count, V4L2_CID_STATELESS_H264_SPS, sps, sizeof *sps);
    add(controls, &count, V4L2_CID_STATELESS_H264_PPS, pps, sizeof *pps);
    if (host->driver.has_matrices)
        add(controls, &count, V4L2_CID_STATELESS_H264_SCALING_MATRIX, matrix, sizeof *matrix);
    add(controls, &count, V4L2_CID_STATELESS_H264_DECODE_PARAMS, params, sizeof *params);
    tell(&host->driver, "VIDIOC_S_EXT_CTRLS request sps pps%s decode_params flags %u",
         host->driver.has_matrices ? " scaling_matrix" : "", (unsigned)params->flags);
    return count;
}

/* Sets the controls of a slice's request. */
static void set_slice(struct host *host, const struct slot *slot, uint64_t job, size_t slice, cupdaisy_request *request)
{
    struct v4l2_ctrl_h264_pred_weights weights;
    struct v4l2_ext_control controls[6];
    uint32_t count = add_picture(host, controls, &request->sps, &request->pps, &request->scaling_matrix, &request->decode_params);
    add(controls, &count, V4L2_CID_STATELESS_H264_SLICE_PARAMS, &request->slice_params, sizeof request->slice_params);
    if (request->has_weights == 1) {
        expect(cupdaisy_job_weights(&host->session, job, slice, &weights), "weights");
        add(controls, &count, V4L2_CID_STATELESS_H264_PRED_WEIGHTS, &weights, sizeof weights);
    }
    tell(&host->driver, " slice_params%s\n", request->has_weights == 1 ? " pred_weights" : "");
    if (!set_controls(&host->driver, controls, count, slot))
        exit(1);
}

/* Sets the controls of a picture's request. */
static void set_frame(struct host *host, const struct slot *slot, cupdaisy_frame *frame)
{
    struct v4l2_ext_control controls[4];
    uint32_t count = add_picture(host, controls, &frame->sps, &frame->pps, &frame->scaling_matrix, &frame->decode_params);
    tell(&host->driver, "\n");
    if (!set_controls(&host->driver, controls, count, slot))
        exit(1);
}

static struct slot *slot_of(struct host *host)
{
    struct slot *slot = next_slot(&host->driver);
    if (slot == NULL)
        exit(1);
    return slot;
}

/* A request a slice. */
static void decode_slices(struct host *host, uint64_t job, const cupdaisy_job_input *input)
{
    if (input->slices > 1 && !host->driver.holds)
        stop("the driver can't hold a surface over several slices");
    for (size_t slice = 0; slice < input->slices; slice++) {
        cupdaisy_request request;
        size_t bytes = 0;
        const struct slot *slot = slot_of(host);
        expect(cupdaisy_job_request(&host->session, job, slice, &request), "request");
        expect(cupdaisy_job_bytes(&host->session, job, slice, slot->bytes, slot->capacity, &bytes), "bytes");
        rewrite(host, job, input->references, &request.decode_params);
        set_slice(host, slot, job, slice, &request);
        if (!host->driver.has_start_codes)
            memmove(slot->bytes, slot->bytes + request.unit_begins, bytes -= request.unit_begins);
        if (!queue_request(&host->driver, slot, bytes, host->clock, request.hold == 1))
            exit(1);
    }
}

/* A request for the whole picture. */
static void decode_frame(struct host *host, uint64_t job, const cupdaisy_job_input *input)
{
    cupdaisy_frame frame;
    size_t bytes = 0;
    const struct slot *slot = slot_of(host);
    expect(cupdaisy_job_frame(&host->session, job, &frame), "frame");
    expect(cupdaisy_job_frame_bytes(&host->session, job, host->driver.has_start_codes, slot->bytes, slot->capacity, &bytes), "bytes");
    rewrite(host, job, input->references, &frame.decode_params);
    set_frame(host, slot, &frame);
    if (!queue_request(&host->driver, slot, bytes, host->clock, false))
        exit(1);
}

/* Why a request for the whole picture of a job can't say what its slices do; NULL where it can. */
static const char *obstacle_of(struct host *host, uint64_t job, const cupdaisy_job_input *input)
{
    cupdaisy_request first;
    cupdaisy_request each;
    expect(cupdaisy_job_request(&host->session, job, 0, &first), "request");
    for (size_t slice = 1; slice < input->slices; slice++) {
        expect(cupdaisy_job_request(&host->session, job, slice, &each), "request");
        if (each.pps.pic_parameter_set_id != first.pps.pic_parameter_set_id)
            return "several picture parameter sets";
    }
    return input->slices > 1 && !host->driver.has_start_codes ? "no start codes by which they could be told apart" : NULL;
}

/* Waits for the job that was queued first, and lands it. */
static void finish_flight(struct host *host)
{
    const struct flight first = host->flights[0];
    uint32_t index = first.surface;
    while (host->driver.finished < first.requests)
        if (!finish_request(&host->driver))
            exit(1);
    if (!dequeue(&host->driver, &host->driver.capture, &index))
        exit(1);
    if (index != first.surface)
        stop("the device gives surfaces back in another order");
    host->flying--;
    memmove(host->flights, host->flights + 1, host->flying * sizeof host->flights[0]);
    host->surfaces[first.surface].touched = ++host->turns;
    tell(&host->driver, "land job %llu\n", (unsigned long long)first.job);
    uint32_t status = cupdaisy_land(&host->session, first.job, first.surface);
    if (status == CUPDAISY_STALE || status == CUPDAISY_NO_SUCH_JOB)
        host->surfaces[first.surface].is_used = false;
    else
        expect(status, "land");
}

/* Whether pictures of a sequence parameter set are of the size and depth for which the driver was set up. */
static bool is_set_up_for(const struct host *host, const struct v4l2_ctrl_h264_sps *sps)
{
    return host->is_set_up && sps->pic_width_in_mbs_minus1 == host->sps.pic_width_in_mbs_minus1
           && sps->pic_height_in_map_units_minus1 == host->sps.pic_height_in_map_units_minus1
           && sps->chroma_format_idc == host->sps.chroma_format_idc
           && sps->bit_depth_luma_minus8 == host->sps.bit_depth_luma_minus8
           && sps->bit_depth_chroma_minus8 == host->sps.bit_depth_chroma_minus8
           && sps->max_num_ref_frames < host->driver.capture.buffers;
}

/* Sets the driver up for pictures of a sequence parameter set. Where it was for others, all that is out is waited for, and the
 * surfaces go with their pictures. */
static void be_ready(struct host *host, struct v4l2_ctrl_h264_sps *sps)
{
    if (is_set_up_for(host, sps))
        return;
    while (host->flying > 0)
        finish_flight(host);
    while (reclaim(host))
        continue;
    for (size_t i = 0; i < SURFACES; i++)
        if (host->surfaces[i].is_used)
            drop(host, &host->surfaces[i]);
    if (host->is_set_up && !take_down(&host->driver))
        exit(1);
    if (!set_up(&host->driver, sps, FEWEST_SURFACES + host->driver.requests - 1, host->memory))
        exit(1);
    host->sps = *sps;
    host->is_set_up = true;
}

/* Queues a job, to be decoded into a surface. Whether it did: it gives the job back where each surface was touched since a turn, or
 * the driver's mode can't take the picture. */
static bool decode(struct host *host, cupdaisy_job job, uint64_t turn)
{
    cupdaisy_job_input input;
    cupdaisy_request request;
    uint32_t referred = 0;
    expect(cupdaisy_job_input_of(&host->session, job.number, &input), "job");
    expect(cupdaisy_job_request(&host->session, job.number, 0, &request), "request");
    const char *obstacle = host->driver.is_frame_based ? obstacle_of(host, job.number, &input) : NULL;
    if (obstacle == NULL)
        be_ready(host, &request.sps);
    else {
        host->impossible = job.unit;
        host->obstacle = obstacle;
    }
    touch_frames(host, &request.decode_params);
    for (size_t index = 0; index < input.references; index++) {
        uint64_t timestamp = 0;
        referred |= UINT32_C(1) << (surface_of(host, job.number, index, &timestamp) - host->surfaces);
    }
    struct surface *surface = obstacle == NULL ? free_surface(host, referred | busy(host), turn) : NULL;
    if (surface == NULL) {
        expect(cupdaisy_give_back(&host->session, job.number), "give back");
        return false;
    }
    uint32_t index = (uint32_t)(surface - host->surfaces);
    host->clock += 1000;
    tell(&host->driver, "job %llu unit %u\n", (unsigned long long)job.number, (unsigned)job.unit);
    if (!queue_capture(&host->driver, index))
        exit(1);
    if (host->driver.is_frame_based)
        decode_frame(host, job.number, &input);
    else
        decode_slices(host, job.number, &input);
    surface->is_used = true;
    surface->unit = job.unit;
    surface->decoded = host->clock;
    surface->touched = ++host->turns;
    expect(cupdaisy_key(&host->session, job.unit, &surface->key), "key");
    host->flights[host->flying++] = (struct flight){job.number, index, referred, host->driver.queued};
    return true;
}

/* Queues a job that a unit needs, if one more may be out; whether it did. */
static bool decode_for(struct host *host, uint32_t unit, uint64_t turn)
{
    cupdaisy_job job;
    if (host->flying >= host->driver.requests)
        return false;
    uint32_t status = cupdaisy_take_for(&host->session, unit, &job);
    if (status != CUPDAISY_NOTHING_DUE)
        expect(status, "take");
    return status == CUPDAISY_DONE && decode(host, job, turn);
}

/* Queues a job that one of the next units needs, up to one for which the driver has to be set up anew; whether it did. No surface is
 * used for it that was touched since a turn. */
static bool decode_ahead(struct host *host, size_t position, uint64_t turn)
{
    for (size_t next = position + 1; next <= position + host->driver.requests && host->flying < host->driver.requests; next++) {
        cupdaisy_request request;
        uint32_t unit = 0;
        if (cupdaisy_unit_at(&host->session, next, &unit) != CUPDAISY_DONE
            || cupdaisy_unit_request(&host->session, unit, 0, &request) != CUPDAISY_DONE || !is_set_up_for(host, &request.sps))
            return false;
        if (decode_for(host, unit, turn))
            return true;
    }
    return false;
}

/* Decodes what the unit's picture needs, and shows the surface that it lies in. */
static void show(struct host *host, size_t position, uint32_t unit)
{
    uint64_t number = 0;
    uint64_t turn = ++host->turns;
    uint32_t status = cupdaisy_show(&host->session, unit, &number);
    for (; status == CUPDAISY_PENDING; status = cupdaisy_show(&host->session, unit, &number)) {
        host->impossible = 0;
        if (decode_for(host, unit, UINT64_MAX))
            continue;
        if (host->impossible != 0) {
            fprintf(stderr, "v4l2_request: unit %u isn't shown: the slices of unit %u have %s\n", (unsigned)unit,
                    (unsigned)host->impossible, host->obstacle);
            host->is_left_out = true;
            return;
        }
        if (decode_ahead(host, position, turn))
            continue;
        if (host->flying == 0)
            stop("a picture has no job");
        finish_flight(host);
    }
    expect(status, "show");
    touched(host, number);
    tell(&host->driver, "show unit %u surface %lu\n", (unsigned)unit, (unsigned long)number);
}

static void load(struct host *host, const char *path)
{
    size_t length = 0;
    cupdaisy_load_receipt receipt;
    uint8_t *text = whole_file(path, &length);
    host->memory = (uint8_t *)malloc((size_t)MOST_REQUESTS * MOST_BYTES);
    if (text == NULL || host->memory == NULL)
        stop("cannot read the file");
    expect(cupdaisy_open(&host->session, 64), "open");
    expect(cupdaisy_load(&host->session, text, length, &receipt), "load");
    free(text);
}

/* Whether the words are right; what they say. */
static bool read_words(int count, char **words, struct driver *driver, const char **path, const char **video, const char **media)
{
    driver->has_start_codes = true;
    driver->requests = 1;
    for (int i = 1; i < count; i++) {
        if (strcmp(words[i], "--frame-based") == 0)
            driver->is_frame_based = true;
        else if (strcmp(words[i], "--no-start-code") == 0)
            driver->has_start_codes = false;
        else if (strcmp(words[i], "--requests") == 0 && i + 1 < count)
            driver->requests = (uint32_t)strtoul(words[++i], NULL, 10);
        else if (strcmp(words[i], "--video") == 0 && i + 1 < count)
            *video = words[++i];
        else if (strcmp(words[i], "--media") == 0 && i + 1 < count)
            *media = words[++i];
        else if (words[i][0] != '-' && *path == NULL)
            *path = words[i];
        else
            return false;
    }
    return *path != NULL && (*video == NULL) == (*media == NULL) && driver->requests >= 1 && driver->requests <= MOST_REQUESTS;
}

int main(int count, char **words)
{
    static struct host host;
    const char *path = NULL;
    const char *video = NULL;
    const char *media = NULL;
    if (!read_words(count, words, &host.driver, &path, &video, &media)) {
        fprintf(stderr, "usage: v4l2_request FILE [--frame-based] [--no-start-code] [--requests N] "
                        "[--video DEVICE --media DEVICE]\n");
        return 2;
    }
    host.clock = FIRST_DECODE;
    load(&host, path);
    if (!open_driver(&host.driver, video, media))
        return 1;
    uint32_t unit = 0;
    uint32_t status = cupdaisy_unit_at(&host.session, 0, &unit);
    for (size_t position = 1; status == CUPDAISY_DONE; position++) {
        show(&host, position - 1, unit);
        status = cupdaisy_unit_at(&host.session, position, &unit);
    }
    if (status != CUPDAISY_NO_SUCH_PLACE)
        expect(status, "unit");
    while (host.flying > 0)
        finish_flight(&host);
    expect(cupdaisy_close(&host.session), "close");
    free(host.memory);
    if (fflush(stdout) != 0 || ferror(stdout))
        return 1;
    return host.is_left_out ? 3 : 0;
}
