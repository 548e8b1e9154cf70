/*
 * A fuzz target over the calls of cupdaisy.h: a byte string is a list of calls, each a byte for the call and bytes for what it
 * is given. After each call it is looked at whether the status is one that the header names, whether out-parameters stay as
 * they were where the header says so, whether a call took memory that takes none, whether the units are those that the
 * accepted edits leave, and whether the session has just the surfaces that were landed and didn't come back. At the end the session
 * is closed, and nothing may be left on the heap.
 *
 * tools/fuzz-c builds it with libFuzzer. With -DALONE it is a program that runs the files that it is given.
 */
#include "cupdaisy.h"
#include "heap_test.h"

#include <stdio.h>
#include <string.h>

#define EXPECT(condition)                                                          \
    do {                                                                           \
        if (!(condition)) {                                                        \
            fprintf(stderr, "%s:%d: %s\n", __FILE__, __LINE__, #condition);        \
            abort();                                                               \
        }                                                                          \
    } while (0)

enum { MOST_UNITS = 64, ROOM = 1024, STATUSES = 128, CALLS = 64, FAULTS = 63, SURFACES = 8192 };

/* Which statuses each call was answered by: libFuzzer takes these for code that was reached, as the library has no marks. */
#ifndef ALONE
__attribute__((section("__libfuzzer_extra_counters")))
#endif
static uint8_t reached[CALLS * STATUSES];

/* Units: two parameter sets and IDR pictures, one of these of two slices and one long-term; P and B pictures, some with weights. */
static const uint8_t A[] = {0, 0, 1, 0x67, 0x42, 0x00, 0x0A, 0xDA, 0x79, 0, 0, 1, 0x68, 0xCE, 0x38, 0x80,
                            0, 0, 1, 0x65, 0x88, 0x84, 0x80};
static const uint8_t I[] = {0, 0, 1, 0x65, 0x88, 0x84, 0x80};
static const uint8_t P1[] = {0, 0, 1, 0x41, 0x9A, 0x23};
static const uint8_t P2[] = {0, 0, 1, 0x41, 0x9A, 0x43};
static const uint8_t P1x[] = {0, 0, 1, 0x41, 0x9A, 0x23, 0x80};
static const uint8_t W[] = {0, 0, 1, 0x67, 0x4D, 0x00, 0x0A, 0x59, 0x59, 0x72, 0, 0, 1, 0x68, 0x48, 0xAD, 0xE2,
                            0, 0, 1, 0x65, 0x88, 0x41, 0x00, 0x30};
static const uint8_t WP[] = {0, 0, 1, 0x41, 0xD0, 0x82, 0x62, 0x38, 0xA3, 0xC4, 0x21, 0xE4, 0x60};
static const uint8_t WB[] = {0, 0, 1, 0x01, 0xA4, 0x40, 0x5E, 0x29, 0x25, 0x80};
static const uint8_t T[] = {0, 0, 1, 0x67, 0x4D, 0x00, 0x0A, 0x59, 0x59, 0x72, 0, 0, 1, 0x68, 0x48, 0xAD, 0xE2,
                            0, 0, 1, 0x65, 0xB4, 0x10, 0x03, 0, 0, 1, 0x65, 0x4D, 0x04, 0x00, 0xC0};
static const uint8_t L[] = {0, 0, 1, 0x67, 0x4D, 0x00, 0x0A, 0x59, 0x59, 0x72, 0, 0, 1, 0x68, 0x48, 0xAD, 0xE2,
                            0, 0, 1, 0x65, 0x88, 0x40, 0x80, 0x1C};
static const uint8_t M[] = {0, 0, 1, 0x41, 0x99, 0x08, 0x37, 0x72, 0x64, 0xAC, 0xEB, 0x80};
static const uint8_t sets[] = {0, 0, 1, 0x67, 0x42, 0x00, 0x0A, 0xDA, 0x79};
static const struct {
    const uint8_t *bytes;
    size_t length;
} texts[] = {{A, sizeof A}, {I, sizeof I}, {P1, sizeof P1}, {P2, sizeof P2}, {P1x, sizeof P1x}, {W, sizeof W},
             {WP, sizeof WP}, {WB, sizeof WB}, {T, sizeof T}, {L, sizeof L}, {M, sizeof M}, {sets, sizeof sets}};

struct input {
    const uint8_t *at;
    size_t left;
};

/* The session, and what is known of it. */
struct known {
    cupdaisy_session session;
    bool is_open;
    uint32_t ids[2 * MOST_UNITS];
    size_t units;
    uint32_t given; /* ids */
    size_t entries; /* of the journal */
    bool has[SURFACES]; /* which surfaces the session has */
    uint64_t jobs;      /* how many were taken */
    bool is_marked;
};

static unsigned call_number;

static unsigned next(struct input *input)
{
    if (input->left == 0)
        return 0;
    input->left--;
    return *input->at++;
}

/* The answer of a call: one of these statuses, or MEMORY where a growth was refused, or NO_SESSION exactly where there is none. */
static uint32_t answered(const struct known *known, uint32_t status, const uint8_t *allowed)
{
    reached[call_number * STATUSES + status % STATUSES] = 1;
    EXPECT(known->is_open != (status == CUPDAISY_NO_SESSION));
    if (status == CUPDAISY_MEMORY) {
        EXPECT(refuse_at != 0 && growths >= refuse_at);
        return status;
    }
    while (known->is_open && *allowed != status)
        EXPECT(*allowed++ != 255);
    return status;
}

static bool is_untouched(const void *bytes, size_t count)
{
    const uint8_t *byte = (const uint8_t *)bytes;
    while (count > 0 && byte[count - 1] == 0xA5)
        count--;
    return count == 0;
}

#define UNTOUCHED(out) memset(&(out), 0xA5, sizeof(out))
#define EXPECT_UNTOUCHED(out) EXPECT(is_untouched(&(out), sizeof(out)))

/* An id of the stream, or another. */
static uint32_t drawn_id(const struct known *known, struct input *input)
{
    static const uint32_t others[] = {0, 1, 200, 4294967295u};
    unsigned drawn = next(input);
    return drawn < 0xE0 && known->units > 0 ? known->ids[drawn % known->units] : others[drawn % 4];
}

static size_t drawn_number(struct input *input)
{
    unsigned drawn = next(input);
    return drawn < 0xF0 ? drawn % 32 : SIZE_MAX - drawn % 2;
}

/* A text: one of the units above, with a byte changed or the end cut off where the bytes say so. */
static size_t drawn_text(struct input *input, uint8_t *text)
{
    unsigned drawn = next(input);
    size_t which = (drawn & 0x3F) % (sizeof texts / sizeof texts[0]);
    size_t length = texts[which].length;
    memcpy(text, texts[which].bytes, length);
    if ((drawn & 0x40) != 0) {
        size_t place = next(input) % length;
        text[place] = (uint8_t)next(input);
    }
    return (drawn & 0x80) != 0 ? next(input) % (length + 1) : length;
}

/* A surface that the session doesn't have. */
static uint64_t drawn_surface(const struct known *known, struct input *input)
{
    uint64_t surface = next(input);
    while (known->has[surface])
        surface = (surface + 1) % SURFACES;
    return surface;
}

/* A surface is the host's again: the session had it, and shows it of no unit. */
static void came_back(struct known *known, uint64_t surface)
{
    EXPECT(surface < SURFACES && known->has[surface]);
    known->has[surface] = false;
    for (size_t place = 0; place < known->units; place++) {
        uint64_t shown = 0;
        EXPECT(cupdaisy_show(&known->session, known->ids[place], &shown) != CUPDAISY_DONE || shown != surface);
    }
}

/* Whether a job that is out refers to a surface. */
static bool is_referred(struct known *known, uint64_t surface)
{
    cupdaisy_reference reference;
    for (uint64_t job = 1; job <= known->jobs; job++)
        for (size_t index = 0; cupdaisy_job_reference(&known->session, job, index, &reference) == CUPDAISY_DONE; index++)
            if (reference.surface == surface)
                return true;
    return false;
}

static void put_id(struct known *known, size_t at, uint32_t id)
{
    EXPECT(known->given + 1 == id);
    memmove(known->ids + at + 1, known->ids + at, (known->units - at) * sizeof known->ids[0]);
    known->ids[at] = id;
    known->given = id;
    known->units++;
}

static size_t place_of(const struct known *known, uint32_t id)
{
    size_t place = 0;
    while (place < known->units && known->ids[place] != id)
        place++;
    return place;
}

static void take_id(struct known *known, uint32_t id)
{
    size_t at = place_of(known, id);
    EXPECT(at < known->units);
    known->units--;
    memmove(known->ids + at, known->ids + at + 1, (known->units - at) * sizeof known->ids[0]);
}

/* An accepted edit is one entry more, under the next number, and about this id. */
static void accepted(struct known *known, unsigned kind, uint32_t after, uint32_t id)
{
    switch (kind) {
    case CUPDAISY_INSERT_FIRST:
        put_id(known, 0, id);
        break;
    case CUPDAISY_INSERT_AFTER:
        EXPECT(place_of(known, after) < known->units);
        put_id(known, place_of(known, after) + 1, id);
        break;
    case CUPDAISY_DELETE:
        EXPECT(id == after);
        take_id(known, id);
        break;
    default:
        EXPECT(id == after && place_of(known, id) < known->units);
    }
}

static const uint8_t of_edits[] = {0, 1, 2, 3, 4, 5, 6, 7, 8, 9, 10, 11, 13, 14, 16, 255};
static const uint8_t of_deletion[] = {0, 16, 255};
static const uint8_t of_group[] = {0, 1, 2, 3, 4, 5, 6, 7, 8, 9, 10, 11, 13, 14, 16, 20, 103, 115, 255};
static const uint8_t of_load[] = {0, 1, 2, 3, 4, 5, 6, 7, 8, 9, 10, 11, 13, 14, 255};

static void edit(struct known *known, struct input *input, unsigned which)
{
    uint8_t text[ROOM];
    cupdaisy_receipt receipt;
    cupdaisy_session *session = &known->session;
    uint32_t status = 0;
    uint32_t id = which == 0 || which == 4 ? 0 : drawn_id(known, input);
    size_t length = which == 2 ? 0 : drawn_text(input, text);
    UNTOUCHED(receipt);
    switch (which) {
    case 0:
        status = cupdaisy_insert_first(session, text, length, &receipt);
        break;
    case 1:
        status = cupdaisy_insert_after(session, id, text, length, &receipt);
        break;
    case 2:
        status = cupdaisy_delete(session, id, &receipt);
        break;
    case 3:
        status = cupdaisy_replace(session, id, text, length, &receipt);
        break;
    default:
        status = cupdaisy_insert_last(session, text, length, &receipt);
    }
    if (answered(known, status, which == 2 ? of_deletion : of_edits) != CUPDAISY_DONE) {
        EXPECT_UNTOUCHED(receipt);
        return;
    }
    unsigned kind = which == 4 ? known->units == 0 ? CUPDAISY_INSERT_FIRST : CUPDAISY_INSERT_AFTER : which;
    accepted(known, kind, which == 4 && known->units > 0 ? known->ids[known->units - 1] : id, receipt.id);
    EXPECT(receipt.number == ++known->entries);
}

static void group(struct known *known, struct input *input)
{
    uint8_t all[8 * ROOM];
    cupdaisy_edit edits[8];
    uint32_t ids[8];
    cupdaisy_group_receipt receipt;
    size_t count = next(input) % 8;
    size_t length = 0;
    size_t room = 8 - next(input) % 9;
    memset(edits, 0, sizeof edits);
    all[0] = 0;
    for (size_t i = 0; i < count; i++) {
        unsigned kind = next(input);
        edits[i].kind = kind < 0xF0 ? kind % 4 : kind;
        edits[i].id = drawn_id(known, input);
        edits[i].from = kind % 16 == 15 ? drawn_number(input) : length;
        edits[i].count = drawn_text(input, all + length);
        length += edits[i].count;
    }
    UNTOUCHED(ids);
    UNTOUCHED(receipt);
    uint32_t status = cupdaisy_group(&known->session, edits, count, all, length, ids, room, &receipt);
    answered(known, status, of_group);
    if (status == CUPDAISY_DONE) {
        EXPECT(count > 0 && room >= count && receipt.number == ++known->entries && receipt.index == 0);
        for (size_t i = 0; i < count; i++)
            accepted(known, edits[i].kind, edits[i].id, ids[i]);
        EXPECT(is_untouched(ids + count, (8 - count) * sizeof ids[0]));
    } else {
        EXPECT_UNTOUCHED(ids);
        EXPECT((status != 20 || count == 0) && (status != CUPDAISY_TOO_SMALL || room < count));
        if (status == 20 || status == CUPDAISY_TOO_SMALL || status == CUPDAISY_NO_SESSION)
            EXPECT_UNTOUCHED(receipt);
        else if (status != CUPDAISY_MEMORY)
            EXPECT(receipt.number == 0 && receipt.index < count);
    }
}

static void load(struct known *known, struct input *input)
{
    uint8_t all[8 * ROOM];
    cupdaisy_load_receipt receipt;
    size_t length = 0;
    size_t count = next(input) % 6;
    all[0] = 0;
    for (size_t i = 0; i < count; i++)
        length += drawn_text(input, all + length);
    UNTOUCHED(receipt);
    uint32_t status = answered(known, cupdaisy_load(&known->session, all, length, &receipt), of_load);
    if (status == CUPDAISY_NO_SESSION) {
        EXPECT_UNTOUCHED(receipt);
        return;
    }
    EXPECT(status == CUPDAISY_DONE || status == CUPDAISY_MEMORY || receipt.units == 0);
    EXPECT((receipt.first == 0) == (receipt.units == 0));
    for (uint64_t i = 0; i < receipt.units; i++) {
        put_id(known, known->units, receipt.first + (uint32_t)i);
        known->entries++;
    }
    EXPECT(receipt.units == 0 || receipt.number == known->entries);
}

static const uint8_t of_place[] = {0, 104, 255};
static const uint8_t of_unit[] = {0, 16, 255};
static const uint8_t of_valid[] = {0, 16, 107, 255};
static const uint8_t of_show[] = {0, 16, 112, 113, 114, 255};
static const uint8_t done[] = {0, 255};

static void ask_places(struct known *known, struct input *input, unsigned which)
{
    cupdaisy_session *session = &known->session;
    size_t number = 0;
    uint32_t id = 0;
    UNTOUCHED(number);
    UNTOUCHED(id);
    uint32_t given = drawn_id(known, input);
    size_t place = drawn_number(input);
    switch (which) {
    case 0:
        if (answered(known, cupdaisy_units(session, &number), done) == CUPDAISY_DONE)
            EXPECT(number == known->units);
        break;
    case 1:
        if (answered(known, cupdaisy_id_at(session, place, &id), of_place) == CUPDAISY_DONE)
            EXPECT(place < known->units && id == known->ids[place]);
        else
            EXPECT(!known->is_open || place >= known->units);
        break;
    case 2:
        if (answered(known, cupdaisy_place(session, given, &number), of_unit) == CUPDAISY_DONE)
            EXPECT(number < known->units && known->ids[number] == given);
        else
            EXPECT_UNTOUCHED(number);
        break;
    case 3:
        if (answered(known, cupdaisy_position(session, given, &number), of_valid) != CUPDAISY_DONE)
            EXPECT_UNTOUCHED(number);
        else
            EXPECT(cupdaisy_unit_at(session, number, &id) == CUPDAISY_DONE && id == given);
        break;
    default:
        if (answered(known, cupdaisy_unit_at(session, place, &id), of_place) != CUPDAISY_DONE)
            EXPECT_UNTOUCHED(id);
        else
            EXPECT(cupdaisy_position(session, id, &number) == CUPDAISY_DONE && number == place);
    }
}

static void ask_unit(struct known *known, struct input *input)
{
    cupdaisy_session *session = &known->session;
    uint32_t id = drawn_id(known, input);
    cupdaisy_outcome outcome;
    uint64_t key = 0;
    uint32_t in_use = 0;
    uint64_t surface = 0;
    UNTOUCHED(outcome);
    UNTOUCHED(key);
    UNTOUCHED(surface);
    uint32_t told = answered(known, cupdaisy_outcome_of(session, id, &outcome), of_unit);
    uint32_t keyed = answered(known, cupdaisy_key(session, id, &key), of_valid);
    uint32_t shown = answered(known, cupdaisy_show(session, id, &surface), of_show);
    EXPECT((told == CUPDAISY_DONE) == (known->is_open && place_of(known, id) < known->units));
    if (shown != CUPDAISY_DONE)
        EXPECT_UNTOUCHED(surface);
    else
        EXPECT(surface < SURFACES && known->has[surface]);
    if (keyed != CUPDAISY_DONE)
        EXPECT_UNTOUCHED(key);
    else
        EXPECT(cupdaisy_in_use(session, key, &in_use) == CUPDAISY_DONE && in_use == 1);
    uint32_t altered = 7;
    EXPECT(answered(known, cupdaisy_is_altered(session, id, &altered), of_unit) == told);
    if (told != CUPDAISY_DONE) {
        EXPECT_UNTOUCHED(outcome);
        EXPECT(keyed == told && shown == told && altered == 7);
        return;
    }
    EXPECT(altered == 0 || (altered == 1 && known->is_marked && keyed == CUPDAISY_DONE));
    reached[FAULTS * STATUSES + outcome.fault % STATUSES] = 1;
    EXPECT(outcome.kind <= CUPDAISY_EMPTY && (outcome.kind == CUPDAISY_PLAN) == (outcome.slices > 0));
    EXPECT((outcome.kind == CUPDAISY_FAULT) == (outcome.fault != 0) && (shown == CUPDAISY_HAS_FAULT) == (outcome.fault != 0));
    EXPECT((outcome.kind == CUPDAISY_EMPTY) == (shown == CUPDAISY_NO_PICTURE));
    EXPECT((outcome.kind == CUPDAISY_PLAN) == (keyed == CUPDAISY_DONE));
}

static const uint8_t of_take[] = {0, 108, 255};
static const uint8_t of_land[] = {0, 105, 110, 255};
static const uint8_t of_job[] = {0, 105, 255};
static const uint8_t of_drop[] = {0, 16, 111, 255};
static const uint8_t of_uncache[] = {0, 111, 255};
static const uint8_t of_reference[] = {0, 104, 105, 255};

static void land(struct known *known, uint64_t job, uint64_t surface)
{
    size_t before = growths;
    uint32_t status = answered(known, cupdaisy_land(&known->session, job, surface), of_land);
    known->has[surface] = status == CUPDAISY_DONE;
    EXPECT(growths == before && (status == CUPDAISY_NO_SESSION || status == CUPDAISY_NO_SUCH_JOB || job <= known->jobs));
}

static bool take(struct known *known, uint32_t status, const cupdaisy_job *job)
{
    if (answered(known, status, of_take) != CUPDAISY_DONE) {
        EXPECT_UNTOUCHED(*job);
        return false;
    }
    EXPECT(place_of(known, job->unit) < known->units && job->number == ++known->jobs);
    return true;
}

static void work(struct known *known, struct input *input, unsigned which)
{
    cupdaisy_session *session = &known->session;
    uint64_t number = drawn_number(input);
    cupdaisy_job job;
    UNTOUCHED(job);
    switch (which) {
    case 0:
        take(known, cupdaisy_take(session, &job), &job);
        break;
    case 1:
        land(known, number, drawn_surface(known, input));
        break;
    case 2:
        answered(known, cupdaisy_give_back(session, number), of_job);
        break;
    case 3:
        /* A job that is out, most often. */
        land(known, known->jobs - number % 4, drawn_surface(known, input));
        break;
    default:
        while (take(known, cupdaisy_take(session, &job), &job)) {
            land(known, job.number, drawn_surface(known, input));
            UNTOUCHED(job);
        }
    }
}

static void take_back_released(struct known *known, struct input *input)
{
    uint64_t surfaces[8];
    size_t room = next(input) % 9;
    size_t count = 0;
    UNTOUCHED(surfaces);
    UNTOUCHED(count);
    if (answered(known, cupdaisy_released(&known->session, surfaces, room, &count), done) != CUPDAISY_DONE) {
        EXPECT_UNTOUCHED(count);
        count = 0;
    }
    EXPECT(count <= room && is_untouched(surfaces + count, (8 - count) * sizeof surfaces[0]));
    for (size_t i = 0; i < count; i++) {
        came_back(known, surfaces[i]);
        EXPECT(!is_referred(known, surfaces[i]));
    }
}

/* What a host with few surfaces calls. */
static void keep_few(struct known *known, struct input *input, unsigned which)
{
    cupdaisy_session *session = &known->session;
    uint32_t id = drawn_id(known, input);
    cupdaisy_job job;
    uint64_t surface = 0;
    uint64_t shown = 0;
    UNTOUCHED(job);
    if (which == 0) {
        if (take(known, cupdaisy_take_for(session, id, &job), &job))
            EXPECT(place_of(known, id) < known->units);
        return;
    }
    size_t before = growths;
    UNTOUCHED(surface);
    uint32_t status = 0;
    if (which == 1) {
        uint32_t asked = cupdaisy_show(session, id, &shown);
        status = answered(known, cupdaisy_drop_picture(session, id, &surface), of_drop);
        EXPECT((status == CUPDAISY_DONE) == (asked == CUPDAISY_DONE));
        EXPECT(status != CUPDAISY_DONE || (surface == shown && cupdaisy_show(session, id, &shown) == CUPDAISY_PENDING));
    } else if (which == 2)
        status = answered(known, cupdaisy_uncache(session, &surface), of_uncache);
    else
        take_back_released(known, input);
    if (which < 3 && status == CUPDAISY_DONE)
        came_back(known, surface);
    else
        EXPECT_UNTOUCHED(surface);
    EXPECT(growths == before);
}

static void ask_job(struct known *known, struct input *input)
{
    cupdaisy_job_input told;
    cupdaisy_reference reference;
    uint64_t number = drawn_number(input);
    size_t index = drawn_number(input);
    UNTOUCHED(told);
    UNTOUCHED(reference);
    uint32_t status = answered(known, cupdaisy_job_input_of(&known->session, number, &told), of_job);
    uint32_t referred = answered(known, cupdaisy_job_reference(&known->session, number, index, &reference), of_reference);
    if (status != CUPDAISY_DONE) {
        EXPECT_UNTOUCHED(told);
        EXPECT(referred == status);
    } else
        EXPECT(number <= known->jobs && told.slices > 0 && (referred == CUPDAISY_DONE) == (index < told.references));
    if (referred != CUPDAISY_DONE)
        EXPECT_UNTOUCHED(reference);
}

static const uint8_t of_unit_slice[] = {0, 16, 103, 106, 107, 255};
static const uint8_t of_job_slice[] = {0, 103, 105, 106, 255};
static const uint8_t of_unit_frame[] = {0, 16, 103, 107, 118, 255};
static const uint8_t of_job_frame[] = {0, 103, 105, 118, 255};

/* The bytes of a slice have a start code of three bytes, and as many as the request says. */
static void ask_bytes(struct known *known, struct input *input, bool of_unit_now)
{
    uint8_t bytes[ROOM];
    size_t needed = 0;
    uint32_t id = drawn_id(known, input);
    uint64_t job = drawn_number(input);
    size_t slice = next(input) % 4;
    size_t room = next(input) * 4;
    UNTOUCHED(bytes);
    UNTOUCHED(needed);
    uint32_t status = of_unit_now ? cupdaisy_unit_bytes(&known->session, id, slice, bytes, room, &needed)
                                  : cupdaisy_job_bytes(&known->session, job, slice, bytes, room, &needed);
    answered(known, status, of_unit_now ? of_unit_slice : of_job_slice);
    size_t written = status == CUPDAISY_DONE ? needed : 0;
    if (status != CUPDAISY_DONE && status != CUPDAISY_TOO_SMALL)
        EXPECT_UNTOUCHED(needed);
    else
        EXPECT((status == CUPDAISY_DONE) == (needed <= room));
    EXPECT(written == 0 || (written > 3 && memcmp(bytes, "\0\0\1", 3) == 0));
    EXPECT(is_untouched(bytes + written, sizeof bytes - written));
}

/* The bytes of a whole picture are those of its slices. */
static void ask_frame_bytes(struct known *known, struct input *input, bool of_unit_now)
{
    uint8_t bytes[ROOM];
    uint8_t slice[ROOM];
    size_t needed = 0;
    size_t count = 0;
    size_t at = 0;
    uint32_t id = drawn_id(known, input);
    uint64_t job = drawn_number(input);
    bool start_codes = next(input) % 4 != 0;
    size_t room = next(input) * 4;
    UNTOUCHED(bytes);
    UNTOUCHED(needed);
    uint32_t status = of_unit_now ? cupdaisy_unit_frame_bytes(&known->session, id, start_codes, bytes, room, &needed)
                                  : cupdaisy_job_frame_bytes(&known->session, job, start_codes, bytes, room, &needed);
    answered(known, status, of_unit_now ? of_unit_frame : of_job_frame);
    size_t written = status == CUPDAISY_DONE ? needed : 0;
    EXPECT(is_untouched(bytes + written, sizeof bytes - written));
    if (status != CUPDAISY_DONE && status != CUPDAISY_TOO_SMALL)
        EXPECT_UNTOUCHED(needed);
    else
        EXPECT((status == CUPDAISY_DONE) == (needed <= room));
    for (size_t i = 0; at < written; i++, at += count) {
        status = of_unit_now ? cupdaisy_unit_bytes(&known->session, id, i, slice, sizeof slice, &count)
                             : cupdaisy_job_bytes(&known->session, job, i, slice, sizeof slice, &count);
        size_t skipped = start_codes ? 0 : 3;
        EXPECT(status == CUPDAISY_DONE && count - skipped <= written - at);
        count -= skipped;
        EXPECT(memcmp(bytes + at, slice + skipped, count) == 0);
    }
}

#ifdef __linux__
static void ask_frame(struct known *known, struct input *input, bool of_unit_now)
{
    cupdaisy_frame frame;
    cupdaisy_request first;
    uint32_t id = drawn_id(known, input);
    uint64_t job = drawn_number(input);
    UNTOUCHED(frame);
    uint32_t status = of_unit_now ? cupdaisy_unit_frame(&known->session, id, &frame)
                                  : cupdaisy_job_frame(&known->session, job, &frame);
    answered(known, status, of_unit_now ? of_unit_frame : of_job_frame);
    EXPECT(status != CUPDAISY_TOO_SMALL && status != CUPDAISY_SEVERAL_SLICES);
    if (status != CUPDAISY_DONE) {
        EXPECT_UNTOUCHED(frame);
        return;
    }
    status = of_unit_now ? cupdaisy_unit_request(&known->session, id, 0, &first)
                         : cupdaisy_job_request(&known->session, job, 0, &first);
    EXPECT(status == CUPDAISY_DONE && frame.timestamp == first.timestamp && frame.slices > 0 && frame.bytes >= first.bytes);
    EXPECT(memcmp(&frame.sps, &first.sps, sizeof first.sps) == 0 && memcmp(&frame.pps, &first.pps, sizeof first.pps) == 0);
    EXPECT(memcmp(frame.decode_params.dpb, first.decode_params.dpb, sizeof first.decode_params.dpb) == 0);
}

static const uint8_t of_unit_weights[] = {0, 16, 106, 107, 116, 255};
static const uint8_t of_job_weights[] = {0, 105, 106, 116, 255};

static void ask_request(struct known *known, struct input *input, bool of_unit_now)
{
    cupdaisy_request request;
    struct v4l2_ctrl_h264_pred_weights weights;
    cupdaisy_session *session = &known->session;
    uint32_t id = drawn_id(known, input);
    uint64_t job = drawn_number(input);
    size_t slice = next(input) % 4;
    UNTOUCHED(request);
    UNTOUCHED(weights);
    uint32_t status = of_unit_now ? cupdaisy_unit_request(session, id, slice, &request)
                                  : cupdaisy_job_request(session, job, slice, &request);
    uint32_t weighed = of_unit_now ? cupdaisy_unit_weights(session, id, slice, &weights)
                                   : cupdaisy_job_weights(session, job, slice, &weights);
    answered(known, status, of_unit_now ? of_unit_slice : of_job_slice);
    answered(known, weighed, of_unit_now ? of_unit_weights : of_job_weights);
    if (weighed != CUPDAISY_DONE)
        EXPECT_UNTOUCHED(weights);
    if (status != CUPDAISY_DONE) {
        EXPECT_UNTOUCHED(request);
        EXPECT(weighed == status);
        return;
    }
    EXPECT(request.unit_begins == 3 && request.bytes > 3 && request.hold <= 1 && request.timestamp % 1000 == 0);
    EXPECT(request.has_weights == (weighed == CUPDAISY_DONE) && request.slice_params.reserved == 0);
}
#endif

static void ask_journal(struct known *known, struct input *input)
{
    uint8_t text[ROOM];
    cupdaisy_session *session = &known->session;
    size_t entries = 0;
    size_t edits = 0;
    size_t needed = 0;
    size_t entry = drawn_number(input);
    size_t index = next(input) % 4;
    cupdaisy_journal_edit told;
    UNTOUCHED(text);
    UNTOUCHED(edits);
    UNTOUCHED(told);
    UNTOUCHED(needed);
    if (answered(known, cupdaisy_journal(session, &entries), done) == CUPDAISY_DONE)
        EXPECT(entries == known->entries);
    bool is_there = answered(known, cupdaisy_journal_entry(session, entry, &edits), of_place) == CUPDAISY_DONE;
    EXPECT(is_there == (known->is_open && entry < known->entries));
    uint32_t status = answered(known, cupdaisy_journal_edit_at(session, entry, index, &told), of_place);
    EXPECT((status == CUPDAISY_DONE) == (is_there && index < edits));
    uint32_t texted = answered(known, cupdaisy_journal_text(session, entry, index, text, sizeof text, &needed), of_place);
    EXPECT(texted == status);
    if (!is_there)
        EXPECT_UNTOUCHED(edits);
    if (status != CUPDAISY_DONE) {
        EXPECT_UNTOUCHED(told);
        EXPECT_UNTOUCHED(needed);
        EXPECT_UNTOUCHED(text);
    } else
        EXPECT(told.kind <= CUPDAISY_REPLACE && needed == told.bytes && is_untouched(text + needed, sizeof text - needed));
}

static void ask_names(struct input *input)
{
    uint8_t name[64];
    size_t needed = 0;
    uint32_t number = next(input);
    size_t room = next(input) % 64;
    UNTOUCHED(name);
    UNTOUCHED(needed);
    unsigned of = next(input) % 3;
    uint32_t status = of == 0   ? cupdaisy_status_name(number, name, room, &needed)
                      : of == 1 ? cupdaisy_fault_name(number, name, room, &needed)
                                : cupdaisy_why_name(number, name, room, &needed);
    reached[call_number * STATUSES + status] = 1;
    EXPECT(status == CUPDAISY_DONE || status == CUPDAISY_TOO_SMALL || status == CUPDAISY_NO_SUCH_NAME);
    size_t written = status == CUPDAISY_DONE ? needed : 0;
    EXPECT(is_untouched(name + written, sizeof name - written));
    if (status == CUPDAISY_NO_SUCH_NAME)
        EXPECT_UNTOUCHED(needed);
    else
        EXPECT((status == CUPDAISY_DONE) == (needed <= room));
}

/* How many units a session takes of the text, which nothing else has. */
static uint64_t loaded(const uint8_t *text, size_t length, uint32_t *status)
{
    cupdaisy_session session = CUPDAISY_NONE;
    cupdaisy_load_receipt receipt;
    EXPECT(cupdaisy_open(&session, 1) == CUPDAISY_DONE);
    *status = cupdaisy_load(&session, text, length, &receipt);
    EXPECT(cupdaisy_close(&session) == CUPDAISY_DONE);
    return receipt.units;
}

/* Units and stray bytes: what stays isn't refused and stays as it is, and so does what isn't refused. */
static void mend(struct input *input)
{
    uint8_t text[4 * ROOM];
    uint8_t bytes[9 * ROOM];
    uint8_t again[9 * ROOM];
    cupdaisy_left_out left_out[64];
    size_t length = 0;
    size_t needed = 0;
    size_t count = 0;
    size_t same = 0;
    uint32_t status = 0;
    text[0] = 0;
    for (size_t i = next(input) % 6; i > 0; i--) {
        length += drawn_text(input, text + length);
        for (size_t stray = next(input) % 8; stray > 0; stray--)
            text[length++] = (uint8_t)next(input);
    }
    size_t room = next(input) < 0xF0 ? sizeof bytes : next(input);
    size_t told = next(input) % 65;
    UNTOUCHED(bytes);
    UNTOUCHED(needed);
    UNTOUCHED(left_out);
    UNTOUCHED(count);
    uint32_t made = cupdaisy_mend(text, length, bytes, room, &needed, left_out, told, &count);
    reached[call_number * STATUSES + made] = 1;
    size_t written = made == CUPDAISY_DONE ? needed : 0;
    EXPECT(is_untouched(bytes + written, sizeof bytes - written));
    if (made == CUPDAISY_MEMORY) {
        EXPECT(refuse_at != 0 && growths >= refuse_at);
        EXPECT_UNTOUCHED(needed);
        EXPECT_UNTOUCHED(left_out);
        EXPECT_UNTOUCHED(count);
        return;
    }
    refuse_at = 0;
    EXPECT(made == (needed <= room ? CUPDAISY_DONE : CUPDAISY_TOO_SMALL) && 4 * needed <= 9 * length);
    size_t outs = count < told ? count : told;
    EXPECT(is_untouched(left_out + outs, (64 - outs) * sizeof left_out[0]));
    for (size_t i = 0; i < outs; i++) {
        EXPECT(left_out[i].byte + left_out[i].bytes <= length && left_out[i].bytes > 0);
        EXPECT(left_out[i].why >= 1 && left_out[i].why <= 11 && (left_out[i].why == CUPDAISY_WHY_UNIT_TYPE) == (left_out[i].unit_type != 0));
        reached[(FAULTS - 1) * STATUSES + left_out[i].why] = 1;
    }
    loaded(text, length, &status);
    if (status == CUPDAISY_DONE)
        EXPECT(count == 0 && needed == length && (made != CUPDAISY_DONE || memcmp(bytes, text, length) == 0));
    if (made != CUPDAISY_DONE || needed == 0)
        return;
    EXPECT(loaded(bytes, needed, &status) > 0 && status == CUPDAISY_DONE);
    EXPECT(cupdaisy_mend(bytes, needed, again, sizeof again, &same, left_out, 64, &count) == CUPDAISY_DONE);
    EXPECT(same == needed && count == 0 && memcmp(again, bytes, needed) == 0);
}

static void open_session(struct known *known, struct input *input)
{
    unsigned drawn = next(input);
    uint16_t cache = (uint16_t)(drawn < 0xF0 ? drawn % 8 : drawn * 17);
    uint32_t status = cupdaisy_open(&known->session, cache);
    reached[call_number * STATUSES + status] = 1;
    if (known->is_open)
        EXPECT(status == CUPDAISY_IS_OPEN);
    else if (status == CUPDAISY_MEMORY)
        EXPECT(refuse_at != 0 && growths >= refuse_at);
    else
        EXPECT(status == (cache >= 1 && cache <= 4096 ? CUPDAISY_DONE : CUPDAISY_CACHE_RANGE));
    known->is_open = known->is_open || status == CUPDAISY_DONE;
}

static void close_session(struct known *known)
{
    answered(known, cupdaisy_close(&known->session), done);
    known->is_open = false;
    known->units = 0;
    known->given = 0;
    known->entries = 0;
    known->jobs = 0;
    known->is_marked = false;
    memset(known->has, 0, sizeof known->has);
    EXPECT(blocks == 0);
}

/* The stream is marked, after which none of its units is altered. */
static void mark(struct known *known)
{
    if (answered(known, cupdaisy_mark(&known->session), done) != CUPDAISY_DONE)
        return;
    known->is_marked = true;
    for (size_t i = 0; i < known->units; i++) {
        uint32_t altered = 7;
        EXPECT(cupdaisy_is_altered(&known->session, known->ids[i], &altered) == CUPDAISY_DONE && altered == 0);
    }
}

/* Calls that take no memory, whatever they answer. */
static void ask(struct known *known, struct input *input, unsigned which)
{
    size_t before = growths;
    if (which < 5)
        ask_places(known, input, which);
    else if (which == 5)
        ask_unit(known, input);
    else if (which == 6)
        ask_job(known, input);
    else if (which < 9)
        ask_bytes(known, input, which == 7);
#ifdef __linux__
    else if (which < 11)
        ask_request(known, input, which == 9);
#endif
    else if (which == 11)
        ask_journal(known, input);
    else
        ask_names(input);
    EXPECT(growths == before);
}

/* The request of a whole picture, and its bytes: these take memory. */
static void ask_whole(struct known *known, struct input *input, unsigned which)
{
#ifdef __linux__
    if (which >= 34) {
        ask_frame(known, input, which == 34);
        return;
    }
#endif
    ask_frame_bytes(known, input, which % 2 == 0);
}

static void call(struct known *known, struct input *input)
{
    unsigned drawn_call = next(input);
    call_number = drawn_call < 248 ? drawn_call % 36 : drawn_call < 252 ? 37 : 36;
    if (call_number < 13)
        ask(known, input, call_number);
    else if (call_number < 18)
        work(known, input, call_number - 13);
    else if (call_number == 18)
        open_session(known, input);
    else if (call_number == 19)
        close_session(known);
    else if (call_number == 20) {
        /* The next call is refused a growth, and each after it where the byte says so. */
        unsigned drawn = next(input);
        refuse_at = growths + 1 + drawn % 64;
        refuse_after = drawn >= 128;
        return;
    } else if (call_number == 36)
        mend(input);
    else if (call_number == 37)
        mark(known);
    else if (call_number >= 32)
        ask_whole(known, input, call_number);
    else if (call_number >= 28)
        keep_few(known, input, call_number - 28);
    else if (known->units + 8 > MOST_UNITS)
        edit(known, input, 2);
    else if (call_number == 21)
        group(known, input);
    else if (call_number == 22)
        load(known, input);
    else
        edit(known, input, (call_number - 23) % 5);
    refuse_at = 0;
}

int LLVMFuzzerTestOneInput(const uint8_t *bytes, size_t count);

int LLVMFuzzerTestOneInput(const uint8_t *bytes, size_t count)
{
    static struct known known;
    struct input input = {bytes, count};
    memset(&known, 0, sizeof known);
    growths = refuse_at = 0;
    struct input first = {(const uint8_t *)"\5", 1};
    call_number = 18;
    open_session(&known, &first);
    while (input.left > 0)
        call(&known, &input);
    refuse_at = 0;
    close_session(&known);
    return 0;
}

#ifdef ALONE
int main(int count, char **words)
{
    for (int i = 1; i < count; i++) {
        static uint8_t bytes[65536];
        FILE *file = fopen(words[i], "rb");
        if (file == NULL) {
            fprintf(stderr, "fuzz: cannot read %s\n", words[i]);
            return 1;
        }
        size_t length = fread(bytes, 1, sizeof bytes, file);
        fclose(file);
        LLVMFuzzerTestOneInput(bytes, length);
    }
    return 0;
}
#endif
