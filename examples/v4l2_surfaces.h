/*
 * The surfaces of examples/v4l2_request.c: which the session has, when each was decoded, which may be used for another picture, and
 * what time each entry of the decoded picture buffer gets. The session knows a surface by the index of its CAPTURE buffer.
 */
#ifndef V4L2_SURFACES_H
#define V4L2_SURFACES_H

#include "v4l2_requests.h"

#include <stdlib.h>

/* A picture may refer to 16 surfaces, and is decoded into one more; each further job that may be out has one more. Decodes have
 * timestamps from a second on, which no unit has. */
enum { FEWEST_SURFACES = 17, SURFACES = FEWEST_SURFACES + MOST_REQUESTS - 1, FIRST_DECODE = 1000000000 };

struct surface {
    bool is_used;     /* whether the session has it, or a job that is out is decoded into it */
    uint64_t key;     /* the number of the key of its picture */
    uint32_t unit;    /* a unit that has the picture */
    uint64_t decoded; /* the timestamp of its decode, which the driver knows */
    uint64_t touched; /* when it was last decoded, referred to or shown */
};

/* A job whose requests are in flight. */
struct flight {
    uint64_t job;
    uint32_t surface;  /* it is decoded into */
    uint32_t referred; /* a bit for each surface that it refers to */
    uint64_t requests; /* how many requests were queued, with its last one */
};

struct host {
    cupdaisy_session session;
    struct driver driver;
    struct v4l2_ctrl_h264_sps sps; /* for which the driver was set up */
    bool is_set_up;
    struct surface surfaces[SURFACES];
    struct flight flights[MOST_REQUESTS]; /* in the order in which they were queued */
    size_t flying;
    uint64_t clock;
    uint64_t turns;
    uint32_t impossible; /* a unit that the driver's mode can't decode, which was found last */
    const char *obstacle; /* what its slices have */
    bool is_left_out;    /* whether a picture wasn't shown for that */
    uint8_t *memory;
};

static void stop(const char *what)
{
    fprintf(stderr, "v4l2_request: %s\n", what);
    exit(1);
}

static void expect(uint32_t status, const char *what)
{
    uint8_t name[64];
    size_t length = 0;
    if (status == CUPDAISY_DONE)
        return;
    if (cupdaisy_status_name(status, name, sizeof name, &length) != CUPDAISY_DONE)
        length = 0;
    fprintf(stderr, "v4l2_request: %s: %u %.*s\n", what, (unsigned)status, (int)length, (const char *)name);
    exit(1);
}

/* A surface that the session names. */
static struct surface *touched(struct host *host, uint64_t number)
{
    if (number >= SURFACES || !host->surfaces[number].is_used)
        stop("the session names a surface that it doesn't have");
    host->surfaces[number].touched = ++host->turns;
    return &host->surfaces[number];
}

/* The surface of a reference of a job. */
static struct surface *surface_of(struct host *host, uint64_t job, size_t index, uint64_t *timestamp)
{
    cupdaisy_reference reference;
    expect(cupdaisy_job_reference(&host->session, job, index, &reference), "reference");
    *timestamp = reference.timestamp;
    return touched(host, reference.surface);
}

/* Takes surfaces back whose pictures no unit has any more: those that edits let go, or else the one that was cached first. Whether
 * there was one. A host that edits its stream has some. */
static bool reclaim(struct host *host)
{
    uint64_t numbers[SURFACES];
    size_t count = 0;
    expect(cupdaisy_released(&host->session, numbers, SURFACES, &count), "released");
    if (count == 0) {
        uint32_t status = cupdaisy_uncache(&host->session, numbers);
        if (status == CUPDAISY_NOT_HELD)
            return false;
        expect(status, "uncache");
        count = 1;
    }
    for (size_t i = 0; i < count; i++)
        touched(host, numbers[i])->is_used = false;
    return true;
}

/* Takes back the surface of a picture that is held. */
static void drop(struct host *host, const struct surface *surface)
{
    uint64_t number = 0;
    tell(&host->driver, "drop unit %u\n", (unsigned)surface->unit);
    expect(cupdaisy_drop_picture(&host->session, surface->unit, &number), "drop");
    touched(host, number)->is_used = false;
}

/* The surfaces that jobs which are out decode into or refer to. */
static uint32_t busy(const struct host *host)
{
    uint32_t surfaces = 0;
    for (size_t i = 0; i < host->flying; i++)
        surfaces |= host->flights[i].referred | UINT32_C(1) << host->flights[i].surface;
    return surfaces;
}

/* A surface that isn't used, but none of these; NULL where there is none. */
static struct surface *unused(struct host *host, uint32_t kept)
{
    for (size_t i = 0; i < host->driver.capture.buffers; i++)
        if ((kept >> i & 1u) == 0 && !host->surfaces[i].is_used)
            return &host->surfaces[i];
    return NULL;
}

/* A surface for the next picture, but none of these: an unused one, or one that the session gives back as no unit has its picture,
 * or the one that was touched longest ago, whose picture is dropped then. NULL where each was touched since a turn. */
static struct surface *free_surface(struct host *host, uint32_t kept, uint64_t turn)
{
    struct surface *oldest = NULL;
    struct surface *found = unused(host, kept);
    while (found == NULL && reclaim(host))
        found = unused(host, kept);
    for (size_t i = 0; found == NULL && i < host->driver.capture.buffers; i++) {
        struct surface *surface = &host->surfaces[i];
        if ((kept >> i & 1u) == 0 && surface->touched < turn && (oldest == NULL || surface->touched < oldest->touched))
            oldest = surface;
    }
    if (oldest != NULL)
        drop(host, oldest);
    return found != NULL ? found : oldest;
}

/* The surface that has the picture of the unit of a timestamp, or will have it. As the stream is now: a host whose stream is edited
 * asks it when it takes the job. */
static struct surface *held(struct host *host, uint64_t timestamp)
{
    uint64_t key = 0;
    if (cupdaisy_key(&host->session, (uint32_t)(timestamp / 1000u), &key) != CUPDAISY_DONE)
        return NULL;
    for (size_t i = 0; i < SURFACES; i++)
        if (host->surfaces[i].is_used && host->surfaces[i].key == key)
            return &host->surfaces[i];
    return NULL;
}

/* Touches all frames of the decoded picture buffer, so that they are the last to go: a later picture may refer to each. */
static void touch_frames(struct host *host, const struct v4l2_ctrl_h264_decode_params *params)
{
    for (size_t entry = 0; entry < V4L2_H264_NUM_DPB_ENTRIES; entry++) {
        bool is_valid = (params->dpb[entry].flags & V4L2_H264_DPB_ENTRY_FLAG_VALID) != 0;
        struct surface *surface = is_valid ? held(host, params->dpb[entry].reference_ts) : NULL;
        if (surface != NULL)
            surface->touched = ++host->turns;
    }
}

/* Puts the timestamps of decodes in the place of the units'. */
static void rewrite(struct host *host, uint64_t job, uint64_t references, struct v4l2_ctrl_h264_decode_params *params)
{
    for (size_t entry = 0; entry < V4L2_H264_NUM_DPB_ENTRIES; entry++) {
        uint64_t unit = params->dpb[entry].reference_ts;
        bool is_valid = (params->dpb[entry].flags & V4L2_H264_DPB_ENTRY_FLAG_VALID) != 0;
        const struct surface *lies = is_valid ? held(host, unit) : NULL;
        uint64_t decoded = lies != NULL ? lies->decoded : 0;
        for (size_t index = 0; is_valid && index < references; index++) {
            uint64_t timestamp = 0;
            const struct surface *surface = surface_of(host, job, index, &timestamp);
            if (timestamp == unit)
                decoded = surface->decoded;
        }
        params->dpb[entry].reference_ts = decoded;
        if (is_valid)
            tell(&host->driver, "dpb %lu unit's timestamp %llu is the decode's %llu\n", (unsigned long)entry,
                 (unsigned long long)unit, (unsigned long long)decoded);
    }
}

#endif
