/*
 * Each call of cupdaisy.h: on its happy path, on each refusal that can be reached, on handles without a session, and with
 * each growth of memory refused in turn. Expected values are those of the repository's worked examples.
 */
#include "cupdaisy.h"
#include "heap_test.h"

#include <stdio.h>
#include <string.h>

static int failures;

#define EXPECT(condition)                                                                \
    do {                                                                                 \
        if (!(condition)) {                                                              \
            printf("%s:%d: %s: %s\n", __FILE__, __LINE__, __func__, #condition);         \
            failures++;                                                                  \
        }                                                                                \
    } while (0)

/* SPS, PPS and an IDR picture; an IDR picture without its sets; three P pictures. */
static const uint8_t A[] = {0, 0, 1, 0x67, 0x42, 0x00, 0x0A, 0xDA, 0x79, 0, 0, 1, 0x68, 0xCE, 0x38, 0x80,
                            0, 0, 1, 0x65, 0x88, 0x84, 0x80};
static const uint8_t I[] = {0, 0, 1, 0x65, 0x88, 0x84, 0x80};
static const uint8_t P1[] = {0, 0, 1, 0x41, 0x9A, 0x23};
static const uint8_t P2[] = {0, 0, 1, 0x41, 0x9A, 0x43};
static const uint8_t P1x[] = {0, 0, 1, 0x41, 0x9A, 0x23, 0x80};
/* Two parameter sets and an IDR picture of two slices; a P picture that refers to it. */
static const uint8_t T[] = {0, 0, 1, 0x67, 0x4D, 0x00, 0x0A, 0x59, 0x59, 0x72, 0, 0, 1, 0x68, 0x48, 0xAD, 0xE2,
                            0, 0, 1, 0x65, 0xB4, 0x10, 0x03, 0, 0, 1, 0x65, 0x4D, 0x04, 0x00, 0xC0};
static const uint8_t WP[] = {0, 0, 1, 0x41, 0xD0, 0x82, 0x62, 0x38, 0xA3, 0xC4, 0x21, 0xE4, 0x60};
static const uint8_t sets[] = {0, 0, 1, 0x67, 0x42, 0x00, 0x0A, 0xDA, 0x79};

static bool is_receipt(cupdaisy_receipt receipt, uint64_t number, uint32_t id)
{
    return receipt.number == number && receipt.id == id && receipt.steps > 0;
}

/* A, P1 and P2 under the ids 1, 2 and 3. */
static void fill(cupdaisy_session *session)
{
    cupdaisy_receipt receipt = {0, 0, 0, 0, 0, 0};
    EXPECT(cupdaisy_insert_first(session, A, sizeof A, &receipt) == CUPDAISY_DONE && is_receipt(receipt, 1, 1));
    EXPECT(cupdaisy_insert_after(session, 1, P1, sizeof P1, &receipt) == CUPDAISY_DONE && is_receipt(receipt, 2, 2));
    EXPECT(cupdaisy_insert_last(session, P2, sizeof P2, &receipt) == CUPDAISY_DONE && is_receipt(receipt, 3, 3));
}

/* Takes and lands until nothing is due, each job in the surface of its number; how many jobs there were. */
static int settle(cupdaisy_session *session)
{
    int jobs = 0;
    cupdaisy_job job = {0, 0};
    while (cupdaisy_take(session, &job) == CUPDAISY_DONE) {
        EXPECT(cupdaisy_land(session, job.number, job.number) == CUPDAISY_DONE);
        jobs++;
    }
    EXPECT(cupdaisy_take(session, &job) == CUPDAISY_NOTHING_DUE);
    return jobs;
}

static void stream_is_told(void)
{
    cupdaisy_session session = CUPDAISY_NONE;
    EXPECT(cupdaisy_open(&session, 16) == CUPDAISY_DONE);
    fill(&session);
    size_t number = 9;
    EXPECT(cupdaisy_units(&session, &number) == CUPDAISY_DONE && number == 3);
    uint32_t id = 9;
    EXPECT(cupdaisy_id_at(&session, 2, &id) == CUPDAISY_DONE && id == 3);
    EXPECT(cupdaisy_id_at(&session, 3, &id) == CUPDAISY_NO_SUCH_PLACE && id == 3);
    EXPECT(cupdaisy_place(&session, 2, &number) == CUPDAISY_DONE && number == 1);
    EXPECT(cupdaisy_place(&session, 4, &number) == CUPDAISY_NO_SUCH_UNIT && number == 1);
    EXPECT(cupdaisy_position(&session, 3, &number) == CUPDAISY_DONE && number == 2);
    EXPECT(cupdaisy_position(&session, 4, &number) == CUPDAISY_NO_SUCH_UNIT && number == 2);
    cupdaisy_outcome outcome;
    memset(&outcome, 0xFF, sizeof outcome);
    EXPECT(cupdaisy_outcome_of(&session, 3, &outcome) == CUPDAISY_DONE);
    EXPECT(outcome.kind == CUPDAISY_PLAN && outcome.fault == 0 && outcome.top == 4 && outcome.bottom == 4);
    EXPECT(outcome.order == 4 && outcome.begins_period == 0 && outcome.slices == 1);
    EXPECT(cupdaisy_outcome_of(&session, 1, &outcome) == CUPDAISY_DONE && outcome.begins_period == 1);
    EXPECT(cupdaisy_outcome_of(&session, 4, &outcome) == CUPDAISY_NO_SUCH_UNIT && outcome.begins_period == 1);
    EXPECT(cupdaisy_close(&session) == CUPDAISY_DONE);
}

static void faults_are_told(void)
{
    cupdaisy_session session = CUPDAISY_NONE;
    EXPECT(cupdaisy_open(&session, 16) == CUPDAISY_DONE);
    cupdaisy_receipt receipt = {0, 0, 0, 0, 0, 0};
    EXPECT(cupdaisy_insert_last(&session, P1, sizeof P1, &receipt) == CUPDAISY_DONE);
    EXPECT(cupdaisy_insert_last(&session, sets, sizeof sets, &receipt) == CUPDAISY_DONE);
    cupdaisy_outcome outcome = {0, 0, 0, 0, 0, 0, 0};
    EXPECT(cupdaisy_outcome_of(&session, 1, &outcome) == CUPDAISY_DONE);
    EXPECT(outcome.kind == CUPDAISY_FAULT && outcome.fault == 1 && outcome.slices == 0);
    EXPECT(cupdaisy_outcome_of(&session, 2, &outcome) == CUPDAISY_DONE);
    EXPECT(outcome.kind == CUPDAISY_EMPTY && outcome.fault == 0);
    size_t position = 9;
    EXPECT(cupdaisy_position(&session, 1, &position) == CUPDAISY_NOT_VALID && position == 9);
    uint64_t surface = 7;
    EXPECT(cupdaisy_show(&session, 1, &surface) == CUPDAISY_HAS_FAULT && surface == 7);
    EXPECT(cupdaisy_show(&session, 2, &surface) == CUPDAISY_NO_PICTURE && surface == 7);
    EXPECT(cupdaisy_show(&session, 3, &surface) == CUPDAISY_NO_SUCH_UNIT && surface == 7);
    EXPECT(cupdaisy_close(&session) == CUPDAISY_DONE);
}

static bool is_doubt(cupdaisy_doubt doubt, uint32_t follows, uint32_t in_doubt)
{
    return doubt.follows == follows && doubt.in_doubt == in_doubt;
}

/* A gap, a picture that fits again, and sets alone; an IDR picture behind them, or the lost picture, ends what follows. */
static void units_behind_a_damage_are_told(void)
{
    cupdaisy_session session = CUPDAISY_NONE;
    EXPECT(cupdaisy_open(&session, 16) == CUPDAISY_DONE);
    cupdaisy_receipt receipt = {0, 0, 0, 0, 0, 0};
    EXPECT(cupdaisy_insert_last(&session, A, sizeof A, &receipt) == CUPDAISY_DONE);
    EXPECT(cupdaisy_insert_last(&session, P2, sizeof P2, &receipt) == CUPDAISY_DONE);
    EXPECT(cupdaisy_insert_last(&session, P1, sizeof P1, &receipt) == CUPDAISY_DONE);
    EXPECT(cupdaisy_insert_last(&session, sets, sizeof sets, &receipt) == CUPDAISY_DONE);
    cupdaisy_doubt doubts[6];
    memset(doubts, 0x77, sizeof doubts);
    size_t count = 9;
    EXPECT(cupdaisy_doubts(&session, 0, doubts, 6, &count) == CUPDAISY_DONE && count == 4);
    EXPECT(is_doubt(doubts[0], 0, 0) && is_doubt(doubts[1], 0, 0) && is_doubt(doubts[2], 2, 1) && is_doubt(doubts[3], 2, 0));
    EXPECT(is_doubt(doubts[4], 0x77777777, 0x77777777));
    EXPECT(cupdaisy_doubts(&session, 2, doubts, 1, &count) == CUPDAISY_DONE && count == 1);
    EXPECT(is_doubt(doubts[0], 2, 1) && is_doubt(doubts[1], 0, 0));
    EXPECT(cupdaisy_doubts(&session, 4, doubts, 6, &count) == CUPDAISY_DONE && count == 0);
    EXPECT(cupdaisy_doubts(&session, (size_t)-1, doubts, 6, &count) == CUPDAISY_DONE && count == 0);
    EXPECT(cupdaisy_doubts(&session, 0, doubts, 0, &count) == CUPDAISY_DONE && count == 0 && is_doubt(doubts[0], 2, 1));
    EXPECT(cupdaisy_insert_last(&session, A, sizeof A, &receipt) == CUPDAISY_DONE && receipt.id == 5);
    EXPECT(cupdaisy_doubts(&session, 3, doubts, 6, &count) == CUPDAISY_DONE && count == 2);
    EXPECT(is_doubt(doubts[0], 2, 0) && is_doubt(doubts[1], 0, 0));
    EXPECT(cupdaisy_insert_after(&session, 1, P1, sizeof P1, &receipt) == CUPDAISY_DONE && receipt.id == 6);
    EXPECT(cupdaisy_doubts(&session, 2, doubts, 2, &count) == CUPDAISY_DONE && count == 2);
    EXPECT(is_doubt(doubts[0], 0, 0));
    EXPECT(cupdaisy_close(&session) == CUPDAISY_DONE);
}

static bool has_changed(uint64_t from, uint64_t count, cupdaisy_receipt receipt)
{
    return receipt.changed_from == from && receipt.changed_count == count;
}

/* Which places an edit, a group and a load changed. */
static void receipts_tell_what_changed(void)
{
    cupdaisy_session session = CUPDAISY_NONE;
    EXPECT(cupdaisy_open(&session, 16) == CUPDAISY_DONE);
    fill(&session);
    cupdaisy_receipt receipt = {7, 7, 7, 7, 7, 7};
    EXPECT(cupdaisy_delete(&session, 2, &receipt) == CUPDAISY_DONE && has_changed(1, 1, receipt));
    EXPECT(cupdaisy_insert_after(&session, 1, P1, sizeof P1, &receipt) == CUPDAISY_DONE && has_changed(1, 2, receipt));
    EXPECT(cupdaisy_replace(&session, 4, P1, sizeof P1, &receipt) == CUPDAISY_DONE && has_changed(0, 0, receipt));
    EXPECT(cupdaisy_delete(&session, 3, &receipt) == CUPDAISY_DONE && has_changed(0, 0, receipt));
    static const cupdaisy_edit edits[] = {{CUPDAISY_DELETE, 4, 0, 0}, {CUPDAISY_INSERT_AFTER, 1, 0, sizeof P2}};
    uint32_t ids[2] = {0, 0};
    cupdaisy_group_receipt group = {7, 7, 7, 7, 7, 7};
    EXPECT(cupdaisy_group(&session, edits, 2, P2, sizeof P2, ids, 2, &group) == CUPDAISY_DONE && ids[1] == 5);
    EXPECT(group.changed_from == 1 && group.changed_count == 1);
    cupdaisy_load_receipt load = {7, 7, 7, 7, 7, 7, 7, 7};
    EXPECT(cupdaisy_load(&session, A, sizeof A, &load) == CUPDAISY_DONE && load.changed_from == 2 && load.changed_count == 1);
    EXPECT(cupdaisy_load(&session, A, 0, &load) == 1 && load.changed_from == 0 && load.changed_count == 0);
    EXPECT(cupdaisy_close(&session) == CUPDAISY_DONE);
}

static void edits_are_refused(void)
{
    cupdaisy_session session = CUPDAISY_NONE;
    EXPECT(cupdaisy_open(&session, 16) == CUPDAISY_DONE);
    fill(&session);
    cupdaisy_receipt receipt = {7, 7, 7, 7, 7, 7};
    static const uint8_t type14[] = {0, 0, 1, 0x6E, 0x40, 0x80};
    EXPECT(cupdaisy_insert_first(&session, A, 0, &receipt) == 1);
    EXPECT(cupdaisy_insert_after(&session, 1, type14, sizeof type14, &receipt) == 2);
    EXPECT(cupdaisy_insert_after(&session, 9, P1, sizeof P1, &receipt) == CUPDAISY_NO_SUCH_UNIT);
    EXPECT(cupdaisy_insert_last(&session, type14, sizeof type14, &receipt) == 2);
    EXPECT(cupdaisy_delete(&session, 9, &receipt) == CUPDAISY_NO_SUCH_UNIT);
    EXPECT(cupdaisy_replace(&session, 9, P1, sizeof P1, &receipt) == CUPDAISY_NO_SUCH_UNIT);
    EXPECT(cupdaisy_replace(&session, 2, type14, sizeof type14, &receipt) == 2);
    EXPECT(receipt.number == 7 && receipt.steps == 7 && receipt.hashed == 7 && receipt.id == 7);
    size_t units = 0;
    EXPECT(cupdaisy_units(&session, &units) == CUPDAISY_DONE && units == 3);
    EXPECT(cupdaisy_close(&session) == CUPDAISY_DONE);
}

static void deleted_unit_is_repaired(void)
{
    cupdaisy_session session = CUPDAISY_NONE;
    EXPECT(cupdaisy_open(&session, 16) == CUPDAISY_DONE);
    fill(&session);
    EXPECT(settle(&session) == 3);
    cupdaisy_receipt receipt = {0, 0, 0, 0, 0, 0};
    EXPECT(cupdaisy_delete(&session, 2, &receipt) == CUPDAISY_DONE && is_receipt(receipt, 4, 2));
    cupdaisy_outcome outcome = {0, 0, 0, 0, 0, 0, 0};
    EXPECT(cupdaisy_outcome_of(&session, 3, &outcome) == CUPDAISY_DONE && outcome.fault == 11);
    EXPECT(cupdaisy_insert_after(&session, 1, P1, sizeof P1, &receipt) == CUPDAISY_DONE && is_receipt(receipt, 5, 4));
    uint64_t surface = 0;
    EXPECT(cupdaisy_show(&session, 3, &surface) == CUPDAISY_DONE && surface == 3);
    EXPECT(cupdaisy_show(&session, 4, &surface) == CUPDAISY_DONE && surface == 2);
    EXPECT(cupdaisy_close(&session) == CUPDAISY_DONE);
}

static void stale_and_late(void)
{
    cupdaisy_session session = CUPDAISY_NONE;
    EXPECT(cupdaisy_open(&session, 16) == CUPDAISY_DONE);
    cupdaisy_receipt receipt = {0, 0, 0, 0, 0, 0};
    cupdaisy_job job = {7, 7};
    uint64_t surface = 7;
    EXPECT(cupdaisy_take(&session, &job) == CUPDAISY_NOTHING_DUE && job.number == 7 && job.unit == 7);
    EXPECT(cupdaisy_insert_last(&session, A, sizeof A, &receipt) == CUPDAISY_DONE);
    EXPECT(cupdaisy_insert_last(&session, P1, sizeof P1, &receipt) == CUPDAISY_DONE);
    EXPECT(cupdaisy_take(&session, &job) == CUPDAISY_DONE && job.number == 1 && job.unit == 1);
    EXPECT(cupdaisy_take(&session, &job) == CUPDAISY_NOTHING_DUE && job.number == 1);
    EXPECT(cupdaisy_land(&session, 1, 11) == CUPDAISY_DONE);
    EXPECT(cupdaisy_take(&session, &job) == CUPDAISY_DONE && job.number == 2 && job.unit == 2);
    EXPECT(cupdaisy_replace(&session, 2, P1x, sizeof P1x, &receipt) == CUPDAISY_DONE);
    EXPECT(cupdaisy_land(&session, 2, 12) == CUPDAISY_STALE);
    EXPECT(cupdaisy_show(&session, 2, &surface) == CUPDAISY_PENDING && surface == 7);
    EXPECT(cupdaisy_take(&session, &job) == CUPDAISY_DONE && job.number == 3 && job.unit == 2);
    EXPECT(cupdaisy_replace(&session, 2, P1, sizeof P1, &receipt) == CUPDAISY_DONE);
    EXPECT(cupdaisy_replace(&session, 2, P1x, sizeof P1x, &receipt) == CUPDAISY_DONE);
    EXPECT(cupdaisy_land(&session, 3, 12) == CUPDAISY_DONE);
    EXPECT(cupdaisy_show(&session, 2, &surface) == CUPDAISY_DONE && surface == 12);
    EXPECT(cupdaisy_land(&session, 3, 13) == CUPDAISY_NO_SUCH_JOB);
    EXPECT(cupdaisy_show(&session, 2, &surface) == CUPDAISY_DONE && surface == 12);
    EXPECT(cupdaisy_give_back(&session, 3) == CUPDAISY_NO_SUCH_JOB);
    EXPECT(cupdaisy_close(&session) == CUPDAISY_DONE);
}

static void equal_units_have_one_picture(void)
{
    cupdaisy_session session = CUPDAISY_NONE;
    EXPECT(cupdaisy_open(&session, 1) == CUPDAISY_DONE);
    cupdaisy_receipt receipt = {0, 0, 0, 0, 0, 0};
    cupdaisy_job job = {0, 0};
    EXPECT(cupdaisy_insert_first(&session, A, sizeof A, &receipt) == CUPDAISY_DONE);
    EXPECT(cupdaisy_insert_after(&session, 1, I, sizeof I, &receipt) == CUPDAISY_DONE);
    EXPECT(cupdaisy_take(&session, &job) == CUPDAISY_DONE && job.number == 1 && job.unit == 1);
    EXPECT(cupdaisy_take(&session, &job) == CUPDAISY_NOTHING_DUE);
    EXPECT(cupdaisy_give_back(&session, 1) == CUPDAISY_DONE);
    EXPECT(cupdaisy_take(&session, &job) == CUPDAISY_DONE && job.number == 2 && job.unit == 1);
    EXPECT(cupdaisy_land(&session, 2, UINT64_MAX) == CUPDAISY_DONE);
    uint64_t surface = 0;
    EXPECT(cupdaisy_show(&session, 1, &surface) == CUPDAISY_DONE && surface == UINT64_MAX);
    surface = 0;
    EXPECT(cupdaisy_show(&session, 2, &surface) == CUPDAISY_DONE && surface == UINT64_MAX);
    /* One of them is enough to drop it, and it comes back once. */
    surface = 0;
    EXPECT(cupdaisy_drop_picture(&session, 2, &surface) == CUPDAISY_DONE && surface == UINT64_MAX);
    EXPECT(cupdaisy_drop_picture(&session, 1, &surface) == CUPDAISY_NOT_HELD);
    EXPECT(cupdaisy_show(&session, 1, &surface) == CUPDAISY_PENDING);
    EXPECT(cupdaisy_close(&session) == CUPDAISY_DONE);
}

static void jobs_are_told(void)
{
    cupdaisy_session session = CUPDAISY_NONE;
    EXPECT(cupdaisy_open(&session, 16) == CUPDAISY_DONE);
    fill(&session);
    cupdaisy_job job = {0, 0};
    EXPECT(cupdaisy_take(&session, &job) == CUPDAISY_DONE);
    EXPECT(cupdaisy_land(&session, job.number, 5) == CUPDAISY_DONE);
    EXPECT(cupdaisy_take(&session, &job) == CUPDAISY_DONE && job.number == 2 && job.unit == 2);
    /* The unit is replaced: the job stays as it was taken. */
    cupdaisy_receipt receipt = {0, 0, 0, 0, 0, 0};
    EXPECT(cupdaisy_replace(&session, 2, P1x, sizeof P1x, &receipt) == CUPDAISY_DONE);
    cupdaisy_job_input input = {0, 0, 0};
    EXPECT(cupdaisy_job_input_of(&session, 2, &input) == CUPDAISY_DONE);
    EXPECT(input.unit == 2 && input.slices == 1 && input.references == 1);
    EXPECT(cupdaisy_job_input_of(&session, 1, &input) == CUPDAISY_NO_SUCH_JOB && input.unit == 2);
    cupdaisy_reference reference = {0, 0};
    EXPECT(cupdaisy_job_reference(&session, 2, 0, &reference) == CUPDAISY_DONE);
    EXPECT(reference.timestamp == 1000 && reference.surface == 5);
    EXPECT(cupdaisy_job_reference(&session, 2, 1, &reference) == CUPDAISY_NO_SUCH_PLACE);
    EXPECT(cupdaisy_job_reference(&session, 1, 0, &reference) == CUPDAISY_NO_SUCH_JOB);
    EXPECT(reference.timestamp == 1000 && reference.surface == 5);
    /* A job that is out still refers to a surface that was dropped. */
    uint64_t surface = 0;
    EXPECT(cupdaisy_drop_picture(&session, 1, &surface) == CUPDAISY_DONE && surface == 5);
    EXPECT(cupdaisy_job_reference(&session, 2, 0, &reference) == CUPDAISY_DONE && reference.surface == 5);
    uint8_t bytes[16];
    memset(bytes, 7, sizeof bytes);
    size_t needed = 0;
    EXPECT(cupdaisy_job_bytes(&session, 2, 0, bytes, 5, &needed) == CUPDAISY_TOO_SMALL && needed == 6 && bytes[0] == 7);
    EXPECT(cupdaisy_job_bytes(&session, 2, 0, bytes, sizeof bytes, &needed) == CUPDAISY_DONE && needed == 6);
    EXPECT(memcmp(bytes, P1, sizeof P1) == 0 && bytes[6] == 7);
    EXPECT(cupdaisy_job_bytes(&session, 2, 1, bytes, sizeof bytes, &needed) == CUPDAISY_NO_SUCH_SLICE);
    EXPECT(cupdaisy_unit_bytes(&session, 2, 0, bytes, sizeof bytes, &needed) == CUPDAISY_DONE && needed == 7);
    EXPECT(memcmp(bytes, P1x, sizeof P1x) == 0);
    EXPECT(cupdaisy_unit_bytes(&session, 9, 0, bytes, sizeof bytes, &needed) == CUPDAISY_NO_SUCH_UNIT && needed == 7);
#ifdef __linux__
    cupdaisy_request request;
    memset(&request, 0xFF, sizeof request);
    EXPECT(cupdaisy_job_request(&session, 2, 0, &request) == CUPDAISY_DONE);
    EXPECT(request.timestamp == 2000 && request.bytes == 6 && request.unit_begins == 3);
    EXPECT(request.hold == 0 && request.has_weights == 0);
    EXPECT(request.slice_params.header_bit_size == 23 && request.slice_params.slice_type == V4L2_H264_SLICE_TYPE_P);
    EXPECT(request.slice_params.ref_pic_list0[0].fields == V4L2_H264_FRAME_REF);
    EXPECT(request.slice_params.ref_pic_list0[0].index == 0 && request.slice_params.ref_pic_list0[1].fields == 0);
    EXPECT(request.decode_params.frame_num == 1 && request.decode_params.dpb[0].reference_ts == 1000);
    EXPECT(request.sps.profile_idc == 66 && request.sps.level_idc == 10 && request.sps.max_num_ref_frames == 1);
    EXPECT(request.sps.pic_order_cnt_type == 2 && request.sps.pic_width_in_mbs_minus1 == 0);
    EXPECT(cupdaisy_unit_request(&session, 2, 0, &request) == CUPDAISY_DONE && request.bytes == 7);
    EXPECT(cupdaisy_unit_request(&session, 2, 1, &request) == CUPDAISY_NO_SUCH_SLICE);
    EXPECT(cupdaisy_unit_request(&session, 9, 0, &request) == CUPDAISY_NO_SUCH_UNIT);
    EXPECT(cupdaisy_job_request(&session, 1, 0, &request) == CUPDAISY_NO_SUCH_JOB && request.bytes == 7);
    struct v4l2_ctrl_h264_pred_weights weights;
    memset(&weights, 7, sizeof weights);
    EXPECT(cupdaisy_unit_weights(&session, 2, 0, &weights) == CUPDAISY_NO_WEIGHTS);
    EXPECT(cupdaisy_job_weights(&session, 2, 0, &weights) == CUPDAISY_NO_WEIGHTS);
    EXPECT(weights.luma_log2_weight_denom == 0x0707);
#endif
    EXPECT(cupdaisy_job_frame_bytes(&session, 2, true, bytes, 5, &needed) == CUPDAISY_TOO_SMALL && needed == 6);
    EXPECT(cupdaisy_job_frame_bytes(&session, 2, true, bytes, sizeof bytes, &needed) == CUPDAISY_DONE && needed == 6);
    EXPECT(memcmp(bytes, P1, sizeof P1) == 0);
    EXPECT(cupdaisy_unit_frame_bytes(&session, 2, false, bytes, sizeof bytes, &needed) == CUPDAISY_DONE && needed == 4);
    EXPECT(memcmp(bytes, P1x + 3, sizeof P1x - 3) == 0);
    EXPECT(cupdaisy_unit_frame_bytes(&session, 9, true, bytes, sizeof bytes, &needed) == CUPDAISY_NO_SUCH_UNIT && needed == 4);
    EXPECT(cupdaisy_job_frame_bytes(&session, 1, true, bytes, sizeof bytes, &needed) == CUPDAISY_NO_SUCH_JOB && needed == 4);
    uint64_t key = 0;
    uint64_t other = 0;
    EXPECT(cupdaisy_key(&session, 1, &key) == CUPDAISY_DONE);
    EXPECT(cupdaisy_key(&session, 2, &other) == CUPDAISY_DONE && key != other);
    EXPECT(cupdaisy_key(&session, 9, &other) == CUPDAISY_NO_SUCH_UNIT);
    EXPECT(cupdaisy_close(&session) == CUPDAISY_DONE);
}

/* The request of a whole picture is that of its first slice, with the flags of all, and has the bytes of all. */
static void frames_are_told(void)
{
    cupdaisy_session session = CUPDAISY_NONE;
    cupdaisy_receipt receipt = {0, 0, 0, 0, 0, 0};
    uint8_t bytes[32];
    size_t needed = 7;
    EXPECT(cupdaisy_open(&session, 16) == CUPDAISY_DONE);
    EXPECT(cupdaisy_insert_last(&session, T, sizeof T, &receipt) == CUPDAISY_DONE);
    EXPECT(cupdaisy_insert_last(&session, WP, sizeof WP, &receipt) == CUPDAISY_DONE);
    EXPECT(cupdaisy_insert_last(&session, sets, sizeof sets, &receipt) == CUPDAISY_DONE);
    const uint8_t *slices = T + 17;
    const size_t count = sizeof T - 17;
    EXPECT(cupdaisy_unit_frame_bytes(&session, 1, true, bytes, sizeof bytes, &needed) == CUPDAISY_DONE && needed == count);
    EXPECT(memcmp(bytes, slices, count) == 0);
    EXPECT(cupdaisy_unit_frame_bytes(&session, 1, true, bytes, count - 1, &needed) == CUPDAISY_TOO_SMALL && needed == count);
    needed = 7;
    EXPECT(cupdaisy_unit_frame_bytes(&session, 1, false, bytes, sizeof bytes, &needed) == CUPDAISY_SEVERAL_SLICES && needed == 7);
    EXPECT(cupdaisy_unit_frame_bytes(&session, 3, true, bytes, sizeof bytes, &needed) == CUPDAISY_NOT_VALID && needed == 7);
#ifdef __linux__
    cupdaisy_frame frame;
    cupdaisy_request first;
    EXPECT(cupdaisy_unit_frame(&session, 1, &frame) == CUPDAISY_DONE);
    EXPECT(cupdaisy_unit_request(&session, 1, 0, &first) == CUPDAISY_DONE);
    EXPECT(frame.timestamp == 1000 && frame.bytes == count && frame.slices == 2);
    EXPECT(memcmp(&frame.sps, &first.sps, sizeof frame.sps) == 0 && memcmp(&frame.pps, &first.pps, sizeof frame.pps) == 0);
    EXPECT(memcmp(&frame.scaling_matrix, &first.scaling_matrix, sizeof frame.scaling_matrix) == 0);
    EXPECT(memcmp(&frame.decode_params, &first.decode_params, sizeof frame.decode_params) == 0);
    EXPECT(cupdaisy_unit_frame(&session, 2, &frame) == CUPDAISY_DONE && frame.timestamp == 2000 && frame.slices == 1);
    EXPECT(cupdaisy_unit_request(&session, 2, 0, &first) == CUPDAISY_DONE);
    EXPECT(frame.decode_params.flags == (first.decode_params.flags | V4L2_H264_DECODE_PARAM_FLAG_PFRAME));
    first.decode_params.flags = frame.decode_params.flags;
    EXPECT(memcmp(&frame.decode_params, &first.decode_params, sizeof frame.decode_params) == 0);
    frame.timestamp = 7;
    EXPECT(cupdaisy_unit_frame(&session, 3, &frame) == CUPDAISY_NOT_VALID && frame.timestamp == 7);
    EXPECT(cupdaisy_unit_frame(&session, 9, &frame) == CUPDAISY_NO_SUCH_UNIT && frame.timestamp == 7);
    EXPECT(cupdaisy_job_frame(&session, 1, &frame) == CUPDAISY_NO_SUCH_JOB && frame.timestamp == 7);
    cupdaisy_job job = {0, 0};
    EXPECT(cupdaisy_take(&session, &job) == CUPDAISY_DONE && job.unit == 1);
    EXPECT(cupdaisy_job_frame(&session, job.number, &frame) == CUPDAISY_DONE && frame.timestamp == 1000 && frame.slices == 2);
    EXPECT(cupdaisy_job_frame_bytes(&session, job.number, false, bytes, sizeof bytes, &needed) == CUPDAISY_SEVERAL_SLICES);
#endif
    EXPECT(cupdaisy_close(&session) == CUPDAISY_DONE);
}

/* The same of a picture of 300 KB, half of it in each of its two slices. */
static void large_frames_are_told(void)
{
    static uint8_t text[300064], bytes[300064];
    const size_t half = 150000, sets_end = 17, second = sets_end + (sizeof T - sets_end) / 2;
    EXPECT(memcmp(T + second, "\0\0\1", 3) == 0);
    memset(text, 0xA5, sizeof text);
    memcpy(text, T, second);
    memcpy(text + second + half, T + second, sizeof T - second);
    const size_t length = sizeof T + 2 * half, count = length - sets_end;
    cupdaisy_session session = CUPDAISY_NONE;
    cupdaisy_receipt receipt = {0, 0, 0, 0, 0, 0};
    cupdaisy_job job = {0, 0};
    size_t needed = 0;
    EXPECT(cupdaisy_open(&session, 1) == CUPDAISY_DONE);
    EXPECT(cupdaisy_insert_last(&session, text, length, &receipt) == CUPDAISY_DONE && receipt.hashed == count);
    EXPECT(cupdaisy_unit_frame_bytes(&session, 1, true, bytes, count - 1, &needed) == CUPDAISY_TOO_SMALL && needed == count);
    EXPECT(bytes[0] == 0 && bytes[count - 2] == 0);
    EXPECT(cupdaisy_take(&session, &job) == CUPDAISY_DONE && job.unit == 1);
    EXPECT(cupdaisy_job_frame_bytes(&session, job.number, true, bytes, sizeof bytes, &needed) == CUPDAISY_DONE && needed == count);
    EXPECT(memcmp(bytes, text + sets_end, count) == 0);
#ifdef __linux__
    cupdaisy_frame frame;
    EXPECT(cupdaisy_job_frame(&session, job.number, &frame) == CUPDAISY_DONE && frame.bytes == count && frame.slices == 2);
#endif
    EXPECT(cupdaisy_close(&session) == CUPDAISY_DONE);
}

/* The worked examples of taking for a unit and of dropping pictures. */
static void pictures_are_dropped(void)
{
    cupdaisy_session session = CUPDAISY_NONE;
    EXPECT(cupdaisy_open(&session, 16) == CUPDAISY_DONE);
    fill(&session);
    cupdaisy_job job = {7, 7};
    EXPECT(cupdaisy_take_for(&session, 9, &job) == CUPDAISY_NOTHING_DUE && job.number == 7);
    for (uint32_t number = 1; number <= 3; number++) {
        EXPECT(cupdaisy_take_for(&session, 3, &job) == CUPDAISY_DONE && job.number == number && job.unit == number);
        EXPECT(cupdaisy_take_for(&session, 3, &job) == CUPDAISY_NOTHING_DUE && job.number == number);
        EXPECT(cupdaisy_land(&session, number, 10 + number) == CUPDAISY_DONE);
    }
    uint64_t surface = 0;
    EXPECT(cupdaisy_show(&session, 3, &surface) == CUPDAISY_DONE && surface == 13);
    EXPECT(cupdaisy_drop_picture(&session, 2, &surface) == CUPDAISY_DONE && surface == 12);
    surface = 7;
    EXPECT(cupdaisy_drop_picture(&session, 2, &surface) == CUPDAISY_NOT_HELD && surface == 7);
    EXPECT(cupdaisy_drop_picture(&session, 9, &surface) == CUPDAISY_NO_SUCH_UNIT && surface == 7);
    EXPECT(cupdaisy_uncache(&session, &surface) == CUPDAISY_NOT_HELD && surface == 7);
    EXPECT(cupdaisy_show(&session, 2, &surface) == CUPDAISY_PENDING);
    EXPECT(cupdaisy_show(&session, 3, &surface) == CUPDAISY_DONE && surface == 13);
    EXPECT(cupdaisy_take_for(&session, 3, &job) == CUPDAISY_NOTHING_DUE);
    EXPECT(cupdaisy_take(&session, &job) == CUPDAISY_DONE && job.number == 4 && job.unit == 2);
    EXPECT(cupdaisy_land(&session, 4, 12) == CUPDAISY_DONE);
    uint64_t key = 0;
    uint32_t in_use = 7;
    EXPECT(cupdaisy_key(&session, 3, &key) == CUPDAISY_DONE);
    EXPECT(cupdaisy_in_use(&session, key, &in_use) == CUPDAISY_DONE && in_use == 1);
    cupdaisy_receipt receipt = {0, 0, 0, 0, 0, 0};
    EXPECT(cupdaisy_delete(&session, 3, &receipt) == CUPDAISY_DONE);
    EXPECT(cupdaisy_in_use(&session, key, &in_use) == CUPDAISY_DONE && in_use == 0);
    /* The deleted unit's picture is cached, and comes back with the unit; not so once its surface went back. */
    EXPECT(cupdaisy_insert_last(&session, P2, sizeof P2, &receipt) == CUPDAISY_DONE && receipt.id == 4);
    EXPECT(cupdaisy_show(&session, 4, &surface) == CUPDAISY_DONE && surface == 13);
    EXPECT(cupdaisy_delete(&session, 4, &receipt) == CUPDAISY_DONE);
    surface = 7;
    EXPECT(cupdaisy_uncache(&session, &surface) == CUPDAISY_DONE && surface == 13);
    EXPECT(cupdaisy_uncache(&session, &surface) == CUPDAISY_NOT_HELD && surface == 13);
    EXPECT(cupdaisy_insert_last(&session, P2, sizeof P2, &receipt) == CUPDAISY_DONE && receipt.id == 5);
    EXPECT(cupdaisy_show(&session, 5, &surface) == CUPDAISY_PENDING);
    EXPECT(cupdaisy_close(&session) == CUPDAISY_DONE);
}

/* Whether a unit is altered, by the number that is told. */
static bool has_altered(cupdaisy_session *session, uint32_t id, uint32_t expected)
{
    uint32_t altered = 7;
    return cupdaisy_is_altered(session, id, &altered) == CUPDAISY_DONE && altered == expected;
}

static void altered_units_are_told(void)
{
    cupdaisy_session session = CUPDAISY_NONE;
    cupdaisy_receipt receipt = {0, 0, 0, 0, 0, 0};
    uint32_t altered = 7;
    EXPECT(cupdaisy_open(&session, 16) == CUPDAISY_DONE);
    fill(&session);
    /* Before a mark none is; behind one a replaced unit is, and so is the one that lists it, until it is as it was. */
    EXPECT(has_altered(&session, 1, 0) && has_altered(&session, 2, 0) && has_altered(&session, 3, 0));
    EXPECT(cupdaisy_mark(&session) == CUPDAISY_DONE);
    EXPECT(cupdaisy_replace(&session, 2, P1x, sizeof P1x, &receipt) == CUPDAISY_DONE);
    EXPECT(has_altered(&session, 1, 0) && has_altered(&session, 2, 1) && has_altered(&session, 3, 1));
    EXPECT(cupdaisy_replace(&session, 2, P1, sizeof P1, &receipt) == CUPDAISY_DONE);
    EXPECT(has_altered(&session, 1, 0) && has_altered(&session, 2, 0) && has_altered(&session, 3, 0));
    /* A new mark takes the place of the old one; a unit with a fault is none. */
    EXPECT(cupdaisy_delete(&session, 2, &receipt) == CUPDAISY_DONE && has_altered(&session, 3, 0));
    EXPECT(cupdaisy_mark(&session) == CUPDAISY_DONE);
    EXPECT(cupdaisy_insert_after(&session, 1, P1, sizeof P1, &receipt) == CUPDAISY_DONE && receipt.id == 4);
    EXPECT(has_altered(&session, 1, 0) && has_altered(&session, 4, 1) && has_altered(&session, 3, 1));
    EXPECT(cupdaisy_is_altered(&session, 2, &altered) == CUPDAISY_NO_SUCH_UNIT && altered == 7);
    EXPECT(cupdaisy_close(&session) == CUPDAISY_DONE);
}

/* What a cache of one picture has no room for goes back, but not while a job that is out refers to it. */
static void pictures_are_released(void)
{
    cupdaisy_session session = CUPDAISY_NONE;
    EXPECT(cupdaisy_open(&session, 1) == CUPDAISY_DONE);
    fill(&session);
    cupdaisy_job job = {0, 0};
    cupdaisy_receipt receipt = {0, 0, 0, 0, 0, 0};
    uint64_t surfaces[4] = {7, 7, 7, 7};
    size_t count = 7;
    EXPECT(cupdaisy_released(&session, surfaces, 4, &count) == CUPDAISY_DONE && count == 0 && surfaces[0] == 7);
    for (uint64_t number = 1; number <= 2; number++) {
        EXPECT(cupdaisy_take(&session, &job) == CUPDAISY_DONE && job.unit == number);
        EXPECT(cupdaisy_land(&session, number, 10 + number) == CUPDAISY_DONE);
    }
    /* The third picture is made of the second one, which is cached now, and then pushed out by the first one. */
    EXPECT(cupdaisy_take(&session, &job) == CUPDAISY_DONE && job.number == 3 && job.unit == 3);
    EXPECT(cupdaisy_delete(&session, 2, &receipt) == CUPDAISY_DONE);
    EXPECT(cupdaisy_released(&session, surfaces, 4, &count) == CUPDAISY_DONE && count == 0 && surfaces[0] == 7);
    EXPECT(cupdaisy_delete(&session, 1, &receipt) == CUPDAISY_DONE);
    EXPECT(cupdaisy_released(&session, surfaces, 4, &count) == CUPDAISY_DONE && count == 0 && surfaces[0] == 7);
    EXPECT(cupdaisy_land(&session, 3, 13) == CUPDAISY_STALE);
    EXPECT(cupdaisy_released(&session, surfaces, 0, &count) == CUPDAISY_DONE && count == 0 && surfaces[0] == 7);
    EXPECT(cupdaisy_released(&session, surfaces, 4, &count) == CUPDAISY_DONE && count == 1);
    EXPECT(surfaces[0] == 12 && surfaces[1] == 7);
    EXPECT(cupdaisy_released(&session, surfaces, 4, &count) == CUPDAISY_DONE && count == 0 && surfaces[0] == 12);
    EXPECT(cupdaisy_uncache(&session, surfaces) == CUPDAISY_DONE && surfaces[0] == 11);
    EXPECT(cupdaisy_close(&session) == CUPDAISY_DONE);
}

static void journal_is_told(void)
{
    cupdaisy_session session = CUPDAISY_NONE;
    EXPECT(cupdaisy_open(&session, 16) == CUPDAISY_DONE);
    fill(&session);
    cupdaisy_receipt receipt = {0, 0, 0, 0, 0, 0};
    EXPECT(cupdaisy_delete(&session, 3, &receipt) == CUPDAISY_DONE);
    size_t number = 0;
    EXPECT(cupdaisy_journal(&session, &number) == CUPDAISY_DONE && number == 4);
    EXPECT(cupdaisy_journal_entry(&session, 1, &number) == CUPDAISY_DONE && number == 1);
    EXPECT(cupdaisy_journal_entry(&session, 4, &number) == CUPDAISY_NO_SUCH_PLACE && number == 1);
    cupdaisy_journal_edit edit = {9, 9, 9};
    EXPECT(cupdaisy_journal_edit_at(&session, 0, 0, &edit) == CUPDAISY_DONE);
    EXPECT(edit.kind == CUPDAISY_INSERT_FIRST && edit.id == 0 && edit.bytes == sizeof A);
    EXPECT(cupdaisy_journal_edit_at(&session, 1, 0, &edit) == CUPDAISY_DONE);
    EXPECT(edit.kind == CUPDAISY_INSERT_AFTER && edit.id == 1 && edit.bytes == sizeof P1);
    EXPECT(cupdaisy_journal_edit_at(&session, 3, 0, &edit) == CUPDAISY_DONE);
    EXPECT(edit.kind == CUPDAISY_DELETE && edit.id == 3 && edit.bytes == 0);
    EXPECT(cupdaisy_journal_edit_at(&session, 3, 1, &edit) == CUPDAISY_NO_SUCH_PLACE);
    uint8_t text[32];
    size_t needed = 0;
    memset(text, 7, sizeof text);
    EXPECT(cupdaisy_journal_text(&session, 1, 0, text, sizeof text, &needed) == CUPDAISY_DONE && needed == sizeof P1);
    EXPECT(memcmp(text, P1, sizeof P1) == 0);
    EXPECT(cupdaisy_journal_text(&session, 0, 0, text, 3, &needed) == CUPDAISY_TOO_SMALL && needed == sizeof A);
    EXPECT(cupdaisy_journal_text(&session, 4, 0, text, 3, &needed) == CUPDAISY_NO_SUCH_PLACE && needed == sizeof A);
    EXPECT(cupdaisy_close(&session) == CUPDAISY_DONE);
}

/* A byte before the stream, a unit of a type that isn't read, and a slice of another picture than the one before it, which nothing
   shows: 31 bytes and a P slice from macroblock 1 on. */
static const uint8_t damaged[] = {0xAB, 0, 0, 0, 1, 0x67, 0x42, 0x00, 0x0A, 0xDA, 0x79, 0, 0, 1, 0x68, 0xCE, 0x38, 0x80,
                                  0, 0, 1, 0x65, 0x88, 0x84, 0x80, 0, 0, 1, 0x6E, 0x40, 0x80, 0, 0, 1, 0x41, 0x5A};
static const uint8_t whole[] = {0, 0, 0, 1, 0x67, 0x42, 0x00, 0x0A, 0xDA, 0x79, 0, 0, 1, 0x68, 0xCE, 0x38, 0x80,
                                0, 0, 1, 0x65, 0x88, 0x84, 0x80, 0, 0, 1, 0x09, 0xF0, 0, 0, 1, 0x41, 0x5A};

static bool is_left_out(cupdaisy_left_out left_out, uint64_t byte, uint64_t bytes, uint32_t why, uint32_t unit_type)
{
    return left_out.byte == byte && left_out.bytes == bytes && left_out.why == why && left_out.unit_type == unit_type;
}

static void texts_are_mended(void)
{
    uint8_t bytes[64];
    cupdaisy_left_out left_out[3];
    size_t needed = 9;
    size_t count = 9;
    memset(bytes, 7, sizeof bytes);
    memset(left_out, 0x77, sizeof left_out);
    EXPECT(cupdaisy_mend(damaged, sizeof damaged, bytes, sizeof whole - 1, &needed, left_out, 0, &count) == CUPDAISY_TOO_SMALL);
    EXPECT(needed == sizeof whole && count == 2 && bytes[0] == 7 && left_out[0].why == 0x77777777);
    EXPECT(cupdaisy_mend(damaged, sizeof damaged, bytes, 0, &needed, left_out, 1, &count) == CUPDAISY_TOO_SMALL);
    EXPECT(needed == sizeof whole && count == 2 && bytes[0] == 7);
    EXPECT(is_left_out(left_out[0], 0, 1, CUPDAISY_WHY_NOT_NAL_UNIT, 0) && left_out[1].why == 0x77777777);
    memset(left_out, 0x77, sizeof left_out);
    EXPECT(cupdaisy_mend(damaged, sizeof damaged, bytes, sizeof bytes, &needed, left_out, 3, &count) == CUPDAISY_DONE);
    EXPECT(needed == sizeof whole && memcmp(bytes, whole, sizeof whole) == 0 && bytes[sizeof whole] == 7);
    EXPECT(count == 2 && is_left_out(left_out[0], 0, 1, CUPDAISY_WHY_NOT_NAL_UNIT, 0));
    EXPECT(is_left_out(left_out[1], 25, 6, CUPDAISY_WHY_UNIT_TYPE, 14) && left_out[2].why == 0x77777777);
    memset(bytes, 7, sizeof bytes);
    EXPECT(cupdaisy_mend(whole, sizeof whole, bytes, sizeof whole, &needed, left_out, 3, &count) == CUPDAISY_DONE);
    EXPECT(needed == sizeof whole && count == 0 && memcmp(bytes, whole, sizeof whole) == 0);
    EXPECT(cupdaisy_mend(whole, 0, bytes, 0, &needed, left_out, 3, &count) == CUPDAISY_DONE && needed == 0 && count == 0);
    EXPECT(cupdaisy_mend(damaged, 1, bytes, 0, &needed, left_out, 3, &count) == CUPDAISY_DONE && needed == 0 && count == 1);
    cupdaisy_session session = CUPDAISY_NONE;
    cupdaisy_load_receipt told = {7, 7, 7, 7, 7, 7, 7, 7};
    EXPECT(cupdaisy_open(&session, 16) == CUPDAISY_DONE);
    EXPECT(cupdaisy_load(&session, damaged, sizeof damaged, &told) == 1);
    EXPECT(cupdaisy_load(&session, bytes, sizeof whole, &told) == CUPDAISY_DONE && told.units == 2);
    EXPECT(cupdaisy_close(&session) == CUPDAISY_DONE);
}

static void names_are_told(void)
{
    uint8_t name[32];
    size_t needed = 0;
    memset(name, 7, sizeof name);
    EXPECT(cupdaisy_status_name(16, name, sizeof name, &needed) == CUPDAISY_DONE);
    EXPECT(needed == 10 && memcmp(name, "NoSuchUnit", 10) == 0 && name[10] == 7);
    EXPECT(cupdaisy_status_name(12, name, sizeof name, &needed) == CUPDAISY_NO_SUCH_NAME && needed == 10);
    EXPECT(cupdaisy_fault_name(11, name, sizeof name, &needed) == CUPDAISY_DONE);
    EXPECT(needed == 11 && memcmp(name, "FrameNumGap", 11) == 0);
    EXPECT(cupdaisy_fault_name(11, name, 10, &needed) == CUPDAISY_TOO_SMALL && needed == 11);
    EXPECT(cupdaisy_fault_name(19, name, sizeof name, &needed) == CUPDAISY_NO_SUCH_NAME);
    EXPECT(cupdaisy_why_name(CUPDAISY_WHY_TOO_LARGE, name, sizeof name, &needed) == CUPDAISY_DONE);
    EXPECT(needed == 8 && memcmp(name, "TooLarge", 8) == 0);
    EXPECT(cupdaisy_why_name(1, name, 9, &needed) == CUPDAISY_TOO_SMALL && needed == 10);
    EXPECT(cupdaisy_why_name(0, name, sizeof name, &needed) == CUPDAISY_NO_SUCH_NAME && needed == 10);
    EXPECT(cupdaisy_why_name(12, name, sizeof name, &needed) == CUPDAISY_NO_SUCH_NAME);
    EXPECT(cupdaisy_version() == 3000);
    EXPECT(cupdaisy_version_text(name, sizeof name, &needed) == CUPDAISY_DONE && needed == 5);
    EXPECT(memcmp(name, "0.3.0", 5) == 0);
}

/* The texts of a group one after the other, and edits that name them. */
static const uint8_t group_texts[] = {0, 0, 1, 0x41, 0x9A, 0x23, 0, 0, 1, 0x41, 0x9A, 0x43, 0, 0, 1, 0x6E, 0x40, 0x80};

static void groups_are_made(void)
{
    cupdaisy_session session = CUPDAISY_NONE;
    EXPECT(cupdaisy_open(&session, 16) == CUPDAISY_DONE);
    cupdaisy_receipt receipt = {0, 0, 0, 0, 0, 0};
    EXPECT(cupdaisy_insert_first(&session, A, sizeof A, &receipt) == CUPDAISY_DONE);
    cupdaisy_edit edits[] = {{CUPDAISY_INSERT_AFTER, 1, 0, 6}, {CUPDAISY_INSERT_AFTER, 2, 6, 6},
                             {CUPDAISY_REPLACE, 2, 0, 6}, {CUPDAISY_DELETE, 3, 99, 99}};
    uint32_t ids[5] = {7, 7, 7, 7, 7};
    cupdaisy_group_receipt told = {7, 7, 7, 7, 7, 7};
    EXPECT(cupdaisy_group(&session, edits, 4, group_texts, 18, ids, 3, &told) == CUPDAISY_TOO_SMALL);
    EXPECT(cupdaisy_group(&session, edits, 0, group_texts, 18, ids, 5, &told) == 20);
    EXPECT(ids[0] == 7 && told.number == 7 && told.steps == 7 && told.index == 7);
    EXPECT(cupdaisy_group(&session, edits, 4, group_texts, 11, ids, 5, &told) == CUPDAISY_NOT_AN_EDIT && told.index == 1);
    edits[1].id = 9;
    EXPECT(cupdaisy_group(&session, edits, 4, group_texts, 18, ids, 5, &told) == CUPDAISY_NO_SUCH_UNIT && told.index == 1);
    edits[1].from = 12;
    EXPECT(cupdaisy_group(&session, edits, 2, group_texts, 18, ids, 5, &told) == 2 && told.index == 1);
    edits[2].kind = 4;
    EXPECT(cupdaisy_group(&session, edits, 4, group_texts, 18, ids, 5, &told) == CUPDAISY_NOT_AN_EDIT && told.index == 2);
    EXPECT(ids[0] == 7 && told.number == 0 && told.steps == 0);
    edits[1].id = 2;
    edits[1].from = 6;
    edits[2].kind = CUPDAISY_REPLACE;
    EXPECT(cupdaisy_group(&session, edits, 4, group_texts, 18, ids, 5, &told) == CUPDAISY_DONE);
    EXPECT(told.number == 2 && told.steps > 0 && told.index == 0);
    EXPECT(ids[0] == 2 && ids[1] == 3 && ids[2] == 2 && ids[3] == 3 && ids[4] == 7);
    size_t number = 0;
    EXPECT(cupdaisy_units(&session, &number) == CUPDAISY_DONE && number == 2);
    EXPECT(cupdaisy_journal_entry(&session, 1, &number) == CUPDAISY_DONE && number == 4);
    EXPECT(cupdaisy_close(&session) == CUPDAISY_DONE);
}

static void streams_are_loaded(void)
{
    cupdaisy_session session = CUPDAISY_NONE;
    EXPECT(cupdaisy_open(&session, 16) == CUPDAISY_DONE);
    uint8_t stream[sizeof A + sizeof group_texts];
    memcpy(stream, A, sizeof A);
    memcpy(stream + sizeof A, group_texts, sizeof group_texts);
    cupdaisy_load_receipt told;
    memset(&told, 7, sizeof told);
    EXPECT(cupdaisy_load(&session, stream, sizeof stream, &told) == 2 && told.index == 3);
    EXPECT(told.number == 0 && told.steps == 0 && told.units == 0 && told.first == 0);
    EXPECT(cupdaisy_load(&session, stream + 1, 1, &told) == 1 && told.index == 0);
    EXPECT(cupdaisy_load(&session, stream, sizeof A + 12, &told) == CUPDAISY_DONE);
    EXPECT(told.number == 3 && told.steps >= 3 && told.units == 3 && told.index == 0 && told.first == 1);
    EXPECT(cupdaisy_load(&session, stream, sizeof A, &told) == CUPDAISY_DONE);
    EXPECT(told.number == 4 && told.units == 1 && told.first == 4);
    uint32_t id = 0;
    for (size_t position = 0; position < 4; position++)
        EXPECT(cupdaisy_unit_at(&session, position, &id) == CUPDAISY_DONE && id == position + 1);
    EXPECT(cupdaisy_unit_at(&session, 4, &id) == CUPDAISY_NO_SUCH_PLACE && id == 4);
    EXPECT(settle(&session) == 3);
    EXPECT(cupdaisy_close(&session) == CUPDAISY_DONE);
}

/* The bytes of the slices that an edit brings, and no others, with start codes of three bytes. */
static void hashed_bytes_are_told(void)
{
    cupdaisy_session session = CUPDAISY_NONE;
    EXPECT(cupdaisy_open(&session, 16) == CUPDAISY_DONE);
    cupdaisy_receipt receipt = {7, 7, 7, 7, 7, 7};
    EXPECT(cupdaisy_insert_first(&session, A, sizeof A, &receipt) == CUPDAISY_DONE && receipt.hashed == sizeof I);
    EXPECT(cupdaisy_insert_last(&session, sets, sizeof sets, &receipt) == CUPDAISY_DONE && receipt.hashed == 0);
    EXPECT(cupdaisy_replace(&session, 2, P1x, sizeof P1x, &receipt) == CUPDAISY_DONE && receipt.hashed == sizeof P1x);
    EXPECT(cupdaisy_delete(&session, 2, &receipt) == CUPDAISY_DONE && receipt.hashed == 0);
    cupdaisy_edit edits[] = {{CUPDAISY_INSERT_AFTER, 1, 0, 6}, {CUPDAISY_INSERT_AFTER, 3, 6, 6}, {CUPDAISY_DELETE, 3, 0, 0}};
    uint32_t ids[3] = {0, 0, 0};
    cupdaisy_group_receipt group = {7, 7, 7, 7, 7, 7};
    EXPECT(cupdaisy_group(&session, edits, 3, group_texts, 12, ids, 3, &group) == CUPDAISY_DONE && group.hashed == 12);
    cupdaisy_load_receipt load = {7, 7, 7, 7, 7, 7, 7, 7};
    EXPECT(cupdaisy_load(&session, group_texts, 12, &load) == CUPDAISY_DONE && load.hashed == 12);
    EXPECT(cupdaisy_load(&session, group_texts, 18, &load) == 2 && load.hashed == 0);
    EXPECT(cupdaisy_close(&session) == CUPDAISY_DONE);
}

static void expect_no_more(cupdaisy_session *session)
{
    cupdaisy_edit edit = {CUPDAISY_DELETE, 1, 0, 0};
    uint32_t ids[1] = {7};
    cupdaisy_group_receipt group = {7, 7, 7, 7, 7, 7};
    cupdaisy_load_receipt load = {7, 7, 7, 7, 7, 7, 7, 7};
    EXPECT(cupdaisy_group(session, &edit, 1, A, sizeof A, ids, 1, &group) == CUPDAISY_NO_SESSION && ids[0] == 7 && group.index == 7);
    EXPECT(cupdaisy_load(session, A, sizeof A, &load) == CUPDAISY_NO_SESSION && load.units == 7);
    uint32_t id = 7;
    uint64_t key = 7;
    size_t number = 7;
    uint8_t bytes[32] = {7};
    EXPECT(cupdaisy_unit_at(session, 0, &id) == CUPDAISY_NO_SESSION && id == 7);
    EXPECT(cupdaisy_key(session, 1, &key) == CUPDAISY_NO_SESSION && key == 7);
    EXPECT(cupdaisy_in_use(session, 1, &id) == CUPDAISY_NO_SESSION && id == 7);
    EXPECT(cupdaisy_mark(session) == CUPDAISY_NO_SESSION);
    EXPECT(cupdaisy_is_altered(session, 1, &id) == CUPDAISY_NO_SESSION && id == 7);
    cupdaisy_doubt doubt = {7, 7};
    EXPECT(cupdaisy_doubts(session, 0, &doubt, 1, &number) == CUPDAISY_NO_SESSION && number == 7 && doubt.follows == 7);
    cupdaisy_job job = {7, 7};
    EXPECT(cupdaisy_take_for(session, 1, &job) == CUPDAISY_NO_SESSION && job.number == 7);
    uint64_t surface = 7;
    EXPECT(cupdaisy_drop_picture(session, 1, &surface) == CUPDAISY_NO_SESSION && surface == 7);
    EXPECT(cupdaisy_uncache(session, &surface) == CUPDAISY_NO_SESSION && surface == 7);
    EXPECT(cupdaisy_released(session, &surface, 1, &number) == CUPDAISY_NO_SESSION && surface == 7 && number == 7);
    cupdaisy_job_input input = {7, 7, 7};
    cupdaisy_reference reference = {7, 7};
    EXPECT(cupdaisy_job_input_of(session, 1, &input) == CUPDAISY_NO_SESSION && input.unit == 7);
    EXPECT(cupdaisy_job_reference(session, 1, 0, &reference) == CUPDAISY_NO_SESSION && reference.timestamp == 7);
    EXPECT(cupdaisy_unit_bytes(session, 1, 0, bytes, sizeof bytes, &number) == CUPDAISY_NO_SESSION && number == 7);
    EXPECT(cupdaisy_job_bytes(session, 1, 0, bytes, sizeof bytes, &number) == CUPDAISY_NO_SESSION && number == 7);
    EXPECT(cupdaisy_unit_frame_bytes(session, 1, true, bytes, sizeof bytes, &number) == CUPDAISY_NO_SESSION && number == 7);
    EXPECT(cupdaisy_job_frame_bytes(session, 1, true, bytes, sizeof bytes, &number) == CUPDAISY_NO_SESSION && number == 7);
#ifdef __linux__
    static cupdaisy_request request;
    static struct v4l2_ctrl_h264_pred_weights weights;
    EXPECT(cupdaisy_unit_request(session, 1, 0, &request) == CUPDAISY_NO_SESSION && request.bytes == 0);
    EXPECT(cupdaisy_job_request(session, 1, 0, &request) == CUPDAISY_NO_SESSION && request.bytes == 0);
    static cupdaisy_frame frame;
    EXPECT(cupdaisy_unit_frame(session, 1, &frame) == CUPDAISY_NO_SESSION && frame.slices == 0);
    EXPECT(cupdaisy_job_frame(session, 1, &frame) == CUPDAISY_NO_SESSION && frame.slices == 0);
    EXPECT(cupdaisy_unit_weights(session, 1, 0, &weights) == CUPDAISY_NO_SESSION);
    EXPECT(cupdaisy_job_weights(session, 1, 0, &weights) == CUPDAISY_NO_SESSION);
#endif
    cupdaisy_journal_edit edited = {7, 7, 7};
    EXPECT(cupdaisy_journal(session, &number) == CUPDAISY_NO_SESSION && number == 7);
    EXPECT(cupdaisy_journal_entry(session, 0, &number) == CUPDAISY_NO_SESSION && number == 7);
    EXPECT(cupdaisy_journal_edit_at(session, 0, 0, &edited) == CUPDAISY_NO_SESSION && edited.kind == 7);
    EXPECT(cupdaisy_journal_text(session, 0, 0, bytes, sizeof bytes, &number) == CUPDAISY_NO_SESSION && number == 7);
}

/* With a handle that has no session each call says so, and writes nothing. */
static void expect_no_session(cupdaisy_session *session)
{
    cupdaisy_receipt receipt = {7, 7, 7, 7, 7, 7};
    EXPECT(cupdaisy_insert_first(session, A, sizeof A, &receipt) == CUPDAISY_NO_SESSION);
    EXPECT(cupdaisy_insert_after(session, 1, A, sizeof A, &receipt) == CUPDAISY_NO_SESSION);
    EXPECT(cupdaisy_insert_last(session, A, sizeof A, &receipt) == CUPDAISY_NO_SESSION);
    EXPECT(cupdaisy_delete(session, 1, &receipt) == CUPDAISY_NO_SESSION);
    EXPECT(cupdaisy_replace(session, 1, A, sizeof A, &receipt) == CUPDAISY_NO_SESSION);
    EXPECT(receipt.number == 7 && receipt.steps == 7 && receipt.id == 7);
    size_t number = 7;
    uint32_t id = 7;
    EXPECT(cupdaisy_units(session, &number) == CUPDAISY_NO_SESSION);
    EXPECT(cupdaisy_id_at(session, 0, &id) == CUPDAISY_NO_SESSION);
    EXPECT(cupdaisy_place(session, 1, &number) == CUPDAISY_NO_SESSION);
    EXPECT(cupdaisy_position(session, 1, &number) == CUPDAISY_NO_SESSION);
    EXPECT(number == 7 && id == 7);
    cupdaisy_outcome outcome = {7, 7, 7, 7, 7, 7, 7};
    EXPECT(cupdaisy_outcome_of(session, 1, &outcome) == CUPDAISY_NO_SESSION && outcome.kind == 7);
    uint64_t surface = 7;
    EXPECT(cupdaisy_show(session, 1, &surface) == CUPDAISY_NO_SESSION && surface == 7);
    cupdaisy_job job = {7, 7};
    EXPECT(cupdaisy_take(session, &job) == CUPDAISY_NO_SESSION && job.number == 7);
    EXPECT(cupdaisy_land(session, 1, 7) == CUPDAISY_NO_SESSION);
    EXPECT(cupdaisy_give_back(session, 1) == CUPDAISY_NO_SESSION);
    expect_no_more(session);
    EXPECT(cupdaisy_close(session) == CUPDAISY_NO_SESSION);
}

static void handles_are_opened_and_closed(void)
{
    cupdaisy_session session = CUPDAISY_NONE;
    expect_no_session(&session);
    EXPECT(cupdaisy_open(&session, 0) == CUPDAISY_CACHE_RANGE);
    EXPECT(cupdaisy_open(&session, 4097) == CUPDAISY_CACHE_RANGE);
    expect_no_session(&session);
    EXPECT(cupdaisy_open(&session, 4096) == CUPDAISY_DONE);
    fill(&session);
    EXPECT(cupdaisy_open(&session, 16) == CUPDAISY_IS_OPEN);
    EXPECT(cupdaisy_open(&session, 0) == CUPDAISY_IS_OPEN);
    size_t units = 0;
    EXPECT(cupdaisy_units(&session, &units) == CUPDAISY_DONE && units == 3);
    EXPECT(cupdaisy_close(&session) == CUPDAISY_DONE);
    EXPECT(cupdaisy_close(&session) == CUPDAISY_NO_SESSION);
    expect_no_session(&session);
    EXPECT(cupdaisy_open(&session, 1) == CUPDAISY_DONE);
    EXPECT(cupdaisy_close(&session) == CUPDAISY_DONE);
}

/* A call that runs out of memory is made again with memory. */
#define WITH_MEMORY(call)                                                                \
    do {                                                                                 \
        uint32_t status = (call);                                                        \
        if (status == CUPDAISY_MEMORY) {                                                 \
            refuse_at = 0;                                                               \
            status = (call);                                                             \
        }                                                                                \
        EXPECT(status == CUPDAISY_DONE);                                                 \
    } while (0)

/* Edits and jobs, of which a growth of memory is refused; how many growths there were. */
static size_t run_refusing(size_t at, bool after)
{
    growths = 0;
    refuse_at = at;
    refuse_after = after;
    cupdaisy_session session = CUPDAISY_NONE;
    cupdaisy_receipt receipt = {0, 0, 0, 0, 0, 0};
    cupdaisy_job job = {0, 0};
    WITH_MEMORY(cupdaisy_open(&session, 2));
    WITH_MEMORY(cupdaisy_insert_first(&session, A, sizeof A, &receipt));
    EXPECT(is_receipt(receipt, 1, 1));
    WITH_MEMORY(cupdaisy_insert_after(&session, 1, P1, sizeof P1, &receipt));
    EXPECT(is_receipt(receipt, 2, 2));
    WITH_MEMORY(cupdaisy_insert_last(&session, P2, sizeof P2, &receipt));
    EXPECT(is_receipt(receipt, 3, 3));
    for (uint64_t number = 1; number <= 3; number++) {
        WITH_MEMORY(cupdaisy_take(&session, &job));
        EXPECT(job.number == number && job.unit == number);
        EXPECT(cupdaisy_land(&session, job.number, 10 + number) == CUPDAISY_DONE);
    }
    WITH_MEMORY(cupdaisy_replace(&session, 2, P1x, sizeof P1x, &receipt));
    EXPECT(is_receipt(receipt, 4, 2));
    WITH_MEMORY(cupdaisy_take(&session, &job));
    EXPECT(job.number == 4 && job.unit == 2);
    WITH_MEMORY(cupdaisy_give_back(&session, job.number));
    WITH_MEMORY(cupdaisy_delete(&session, 3, &receipt));
    EXPECT(is_receipt(receipt, 5, 3));
    cupdaisy_edit edits[] = {{CUPDAISY_INSERT_AFTER, 2, 0, 6}, {CUPDAISY_DELETE, 4, 0, 0}};
    uint32_t ids[2] = {0, 0};
    cupdaisy_group_receipt group = {0, 0, 0, 0, 0, 0};
    WITH_MEMORY(cupdaisy_group(&session, edits, 2, group_texts, 6, ids, 2, &group));
    EXPECT(group.number == 6 && ids[0] == 4 && ids[1] == 4);
    cupdaisy_load_receipt load = {0, 0, 0, 0, 0, 0, 0, 0};
    uint32_t status = cupdaisy_load(&session, group_texts, 12, &load);
    if (status == CUPDAISY_MEMORY) {
        refuse_at = 0;
        EXPECT(load.units < 2);
        status = load.units == 0 ? cupdaisy_load(&session, group_texts, 12, &load)
                                 : cupdaisy_load(&session, group_texts + 6, 6, &load);
    }
    EXPECT(status == CUPDAISY_DONE && load.number == 8);
    WITH_MEMORY(cupdaisy_take_for(&session, 2, &job));
    EXPECT(job.number == 5 && job.unit == 2);
    uint8_t bytes[64];
    size_t needed = 0;
    WITH_MEMORY(cupdaisy_job_frame_bytes(&session, 5, true, bytes, sizeof bytes, &needed));
    EXPECT(needed == sizeof P1x && memcmp(bytes, P1x, sizeof P1x) == 0);
    cupdaisy_left_out left_out[2];
    size_t outs = 7;
    memset(bytes, 7, sizeof bytes);
    memset(left_out, 7, sizeof left_out);
    if (cupdaisy_mend(damaged, sizeof damaged, bytes, sizeof bytes, &needed, left_out, 2, &outs) == CUPDAISY_MEMORY) {
        EXPECT(needed == sizeof P1x && outs == 7 && bytes[0] == 7 && left_out[0].why == 0x07070707);
        refuse_at = 0;
        EXPECT(cupdaisy_mend(damaged, sizeof damaged, bytes, sizeof bytes, &needed, left_out, 2, &outs) == CUPDAISY_DONE);
    }
    EXPECT(needed == sizeof whole && outs == 2 && memcmp(bytes, whole, sizeof whole) == 0 && left_out[1].byte == 25);
#ifdef __linux__
    cupdaisy_frame frame;
    WITH_MEMORY(cupdaisy_job_frame(&session, 5, &frame));
    EXPECT(frame.timestamp == 2000 && frame.bytes == sizeof P1x);
#endif
    /* The replaced unit's picture and that of the one behind it are cached or released, whatever memory was refused. */
    uint64_t back[3] = {0, 0, 0};
    size_t count = 0;
    EXPECT(cupdaisy_released(&session, back, 3, &count) == CUPDAISY_DONE && count <= 2);
    while (cupdaisy_uncache(&session, &back[count]) == CUPDAISY_DONE)
        count++;
    EXPECT(count == 2 && back[0] + back[1] == 25 && (back[0] == 12 || back[0] == 13));
    EXPECT(cupdaisy_give_back(&session, 5) == CUPDAISY_DONE);
    EXPECT(cupdaisy_show(&session, 1, &back[0]) == CUPDAISY_DONE && back[0] == 11);
    EXPECT(cupdaisy_show(&session, 2, &back[0]) == CUPDAISY_PENDING);
    EXPECT(cupdaisy_show(&session, 3, &back[0]) == CUPDAISY_NO_SUCH_UNIT);
    EXPECT(cupdaisy_close(&session) == CUPDAISY_DONE);
    refuse_at = 0;
    return growths;
}

static void growths_are_refused(void)
{
    size_t all = run_refusing(0, false);
    EXPECT(all > 20);
    for (size_t at = 1; at <= all; at++) {
        run_refusing(at, false);
        run_refusing(at, true);
        EXPECT(blocks == 0);
    }
}

int main(void)
{
    stream_is_told();
    faults_are_told();
    units_behind_a_damage_are_told();
    receipts_tell_what_changed();
    edits_are_refused();
    deleted_unit_is_repaired();
    stale_and_late();
    equal_units_have_one_picture();
    jobs_are_told();
    frames_are_told();
    large_frames_are_told();
    altered_units_are_told();
    pictures_are_dropped();
    pictures_are_released();
    journal_is_told();
    texts_are_mended();
    names_are_told();
    groups_are_made();
    streams_are_loaded();
    hashed_bytes_are_told();
    handles_are_opened_and_closed();
    growths_are_refused();
    EXPECT(blocks == 0);
    printf("%s\n", failures == 0 ? "ok" : "failed");
    return failures != 0;
}
