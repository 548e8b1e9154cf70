/*
 * What tests/c/handles.c knows of a session without asking it which surfaces it has: what each unit's picture holds, by the unit's
 * requests alone, and where each surface is.
 */
#ifndef SURFACE_MODEL_H
#define SURFACE_MODEL_H

#include "cupdaisy.h"
#include "heap_test.h"

#include <stdio.h>
#include <string.h>

enum { SURFACES = 24, MOST_UNITS = 12, MOST_JOBS = 5, MOST_REFERENCES = 16, ROOM = 64, FACTOR = 1000 };

static unsigned long calls; /* that were made */
static unsigned long seed;

#define EXPECT(condition)                                                                                       \
    do {                                                                                                        \
        if (!(condition)) {                                                                                     \
            printf("%s:%d: seed %lu, call %lu: %s\n", __FILE__, __LINE__, seed, calls, #condition);             \
            exit(1);                                                                                            \
        }                                                                                                       \
    } while (0)

/* Where a surface is. One whose picture went out of use is gone: it is cached, or released, and which of these is told by how many
 * of its group are. One that is known to be released is that. */
enum place { HOST, HELD, GONE, RELEASED };

static struct {
    enum place place;
    size_t group; /* the number of the edit by which it is gone */
    uint64_t content;
} surfaces[SURFACES];

/* Pictures that one edit let go, the earliest first: how many are gone, and how many of these the cache has pushed out since. */
static struct {
    size_t edit;
    size_t members;
    size_t pushed;
} groups[SURFACES];
static size_t group_count;
static size_t edits;
static size_t cache; /* how many pictures it has room for */
static unsigned long held_again;

static struct {
    uint32_t id;
    uint32_t shown; /* what `show` answers while it has no picture: PENDING, HAS_FAULT or NO_PICTURE */
    uint64_t content;
} units[MOST_UNITS + 2];
static size_t unit_count;

static struct {
    uint64_t number;
    uint64_t content;
    cupdaisy_reference references[MOST_REFERENCES];
    size_t reference_count;
} jobs[MOST_JOBS];
static size_t job_count;

static cupdaisy_session session;

/* A sum with more bytes in it. */
static uint64_t mixed(uint64_t sum, const void *bytes, size_t count)
{
    const uint8_t *byte = (const uint8_t *)bytes;
    uint64_t word = 0;
    for (; count > 0; count -= count < 8 ? count : 8, byte += 8) {
        word = 0;
        memcpy(&word, byte, count < 8 ? count : 8);
        sum = (sum ^ word) * 1099511628211u;
        sum ^= sum >> 29;
    }
    return sum;
}

/* What the picture of a timestamp holds: that of a unit as the stream is now, or of a job's reference. */
static uint64_t content_at(uint64_t timestamp, const cupdaisy_reference *references, size_t count)
{
    for (size_t i = 0; i < count; i++)
        if (references[i].timestamp == timestamp)
            return surfaces[references[i].surface].content;
    for (size_t i = 0; references == NULL && i < unit_count; i++)
        if (FACTOR * (uint64_t)units[i].id == timestamp)
            return units[i].content;
    EXPECT(!"a list names a picture that isn't there");
    return 0;
}

/* A sum with a request in it, and what its lists name. */
static uint64_t with_request(uint64_t sum, cupdaisy_request *request, const cupdaisy_reference *references, size_t count)
{
    const struct v4l2_ctrl_h264_slice_params *slice = &request->slice_params;
    const uint32_t active = slice->slice_type == V4L2_H264_SLICE_TYPE_P ? slice->num_ref_idx_l0_active_minus1 + 1u : 0;
    for (uint32_t i = 0; i < active; i++)
        if (slice->ref_pic_list0[i].fields != 0) {
            const struct v4l2_h264_dpb_entry *entry = &request->decode_params.dpb[slice->ref_pic_list0[i].index];
            const uint64_t content = content_at(entry->reference_ts, references, count);
            sum = mixed(sum, &content, sizeof content);
        }
    for (size_t i = 0; i < V4L2_H264_NUM_DPB_ENTRIES; i++)
        request->decode_params.dpb[i].reference_ts = 0;
    sum = mixed(sum, &request->sps, sizeof request->sps);
    sum = mixed(sum, &request->pps, sizeof request->pps);
    sum = mixed(sum, &request->slice_params, sizeof request->slice_params);
    return mixed(sum, &request->decode_params, sizeof request->decode_params);
}

/* What the picture of a unit holds, by its requests and by the pictures of the units in front of it. */
static uint64_t content_of_unit(uint32_t id, uint64_t slices)
{
    cupdaisy_request request;
    uint8_t bytes[ROOM];
    size_t count = 0;
    uint64_t sum = 1;
    for (size_t slice = 0; slice < slices; slice++) {
        EXPECT(cupdaisy_unit_request(&session, id, slice, &request) == CUPDAISY_DONE);
        EXPECT(cupdaisy_unit_bytes(&session, id, slice, bytes, sizeof bytes, &count) == CUPDAISY_DONE);
        sum = mixed(with_request(sum, &request, NULL, 0), bytes, count);
    }
    return sum;
}

/* What the host decodes of a job, by the surfaces that it refers to. */
static uint64_t content_of_job(size_t job)
{
    cupdaisy_request request;
    cupdaisy_job_input input;
    uint8_t bytes[ROOM];
    size_t count = 0;
    uint64_t sum = 1;
    EXPECT(cupdaisy_job_input_of(&session, jobs[job].number, &input) == CUPDAISY_DONE);
    EXPECT(input.references == jobs[job].reference_count);
    for (size_t slice = 0; slice < input.slices; slice++) {
        EXPECT(cupdaisy_job_request(&session, jobs[job].number, slice, &request) == CUPDAISY_DONE);
        EXPECT(cupdaisy_job_bytes(&session, jobs[job].number, slice, bytes, sizeof bytes, &count) == CUPDAISY_DONE);
        sum = mixed(with_request(sum, &request, jobs[job].references, jobs[job].reference_count), bytes, count);
    }
    return sum;
}

/* Looks at the stream anew, after an edit. */
static void read_units(void)
{
    cupdaisy_outcome outcome;
    size_t count = 0;
    EXPECT(cupdaisy_units(&session, &count) == CUPDAISY_DONE && count <= MOST_UNITS + 2);
    for (unit_count = 0; unit_count < count; unit_count++) {
        uint32_t id = 0;
        EXPECT(cupdaisy_id_at(&session, unit_count, &id) == CUPDAISY_DONE);
        EXPECT(cupdaisy_outcome_of(&session, id, &outcome) == CUPDAISY_DONE);
        units[unit_count].id = id;
        units[unit_count].shown = outcome.kind == CUPDAISY_PLAN ? CUPDAISY_PENDING
                                  : outcome.kind == CUPDAISY_FAULT ? CUPDAISY_HAS_FAULT : CUPDAISY_NO_PICTURE;
        units[unit_count].content = outcome.kind == CUPDAISY_PLAN ? content_of_unit(id, outcome.slices) : 0;
    }
}

/* The place of a valid unit whose picture holds this, or how many units there are. */
static size_t unit_with(uint64_t content)
{
    size_t place = 0;
    while (place < unit_count && (units[place].shown != CUPDAISY_PENDING || units[place].content != content))
        place++;
    return place;
}

/* The surface that is held with this content, or SURFACES. */
static size_t held_with(uint64_t content)
{
    size_t number = 0;
    while (number < SURFACES && (surfaces[number].place != HELD || surfaces[number].content != content))
        number++;
    return number;
}

/* The surface that a unit shows, or SURFACES. */
static size_t shown_by(size_t place)
{
    return units[place].shown == CUPDAISY_PENDING ? held_with(units[place].content) : (size_t)SURFACES;
}

static bool is_referred(uint64_t number)
{
    for (size_t job = 0; job < job_count; job++)
        for (size_t i = 0; i < jobs[job].reference_count; i++)
            if (jobs[job].references[i].surface == number)
                return true;
    return false;
}

static size_t group_of(size_t number)
{
    size_t group = 0;
    while (group < group_count && groups[group].edit != surfaces[number].group)
        group++;
    EXPECT(surfaces[number].place == GONE && group < group_count && groups[group].members > 0);
    return group;
}

/* A gone surface is found out: it was cached, or it was released. */
static void leave_group(size_t number, bool was_cached, enum place place)
{
    size_t group = group_of(number);
    EXPECT(was_cached ? groups[group].members > groups[group].pushed : groups[group].pushed > 0);
    groups[group].members--;
    groups[group].pushed -= !was_cached;
    surfaces[number].place = place;
    if (groups[group].members == 0)
        memmove(groups + group, groups + group + 1, (--group_count - group) * sizeof groups[0]);
}

static size_t cached(void)
{
    size_t count = 0;
    for (size_t group = 0; group < group_count; group++)
        count += groups[group].members - groups[group].pushed;
    return count;
}

/* Pictures whose keys are in use again are held, where they are still cached; else they have been released. */
static void take_back(void)
{
    for (size_t number = 0; number < SURFACES; number++) {
        size_t place = surfaces[number].place == GONE ? unit_with(surfaces[number].content) : unit_count;
        uint64_t shown = SURFACES;
        if (place == unit_count)
            continue;
        uint32_t status = cupdaisy_show(&session, units[place].id, &shown);
        bool was_cached = status == CUPDAISY_DONE && shown == number;
        held_again += was_cached;
        leave_group(number, was_cached, was_cached ? HELD : RELEASED);
    }
}

/* Pictures whose keys went out of use are cached, and push out what the cache has no room for, the earliest first. */
static void let_go(void)
{
    size_t gone = 0;
    edits++;
    for (size_t number = 0; number < SURFACES; number++)
        if (surfaces[number].place == HELD && unit_with(surfaces[number].content) == unit_count) {
            surfaces[number].place = GONE;
            surfaces[number].group = edits;
            gone++;
        }
    if (gone > 0) {
        groups[group_count].edit = edits;
        groups[group_count].members = gone;
        groups[group_count++].pushed = 0;
    }
    for (size_t over = cached(), group = 0; over > cache; over--) {
        while (groups[group].members == groups[group].pushed)
            group++;
        groups[group].pushed++;
    }
}

/* Whether each unit shows what the model has for it. */
static void look(void)
{
    for (size_t place = 0; place < unit_count; place++) {
        uint64_t shown = SURFACES;
        uint32_t status = cupdaisy_show(&session, units[place].id, &shown);
        size_t number = shown_by(place);
        EXPECT(status == (number < SURFACES ? (uint32_t)CUPDAISY_DONE : units[place].shown) && shown == number);
    }
}

/* Whether what is released and didn't come back is all referred to by jobs that are out. */
static void expect_referred(void)
{
    size_t referred[SURFACES] = {0};
    for (size_t number = 0; number < SURFACES; number++) {
        EXPECT(surfaces[number].place != RELEASED || is_referred(number));
        if (surfaces[number].place == GONE && is_referred(number))
            referred[group_of(number)]++;
    }
    for (size_t group = 0; group < group_count; group++)
        EXPECT(groups[group].pushed <= referred[group]);
}

#endif
