/*
 * Drawn calls of a host with 24 surfaces, beside a plain model of which surface is where:
 *     handles [CALLS [SEED]]
 * The host edits a short stream, now and then without enough memory, takes jobs, lands them in any order, late and stale, drops
 * pictures, takes back what is cached and what edits let go, and closes the session now and then. What a surface holds is a sum over a job's requests, their bytes and what
 * the surfaces hold that these refer to. After each call each unit has to show just the surface that the model has for it, and that
 * has to hold what is computed anew from the unit's requests, down to pictures that refer to none. Each surface that is landed
 * comes back once: while it is neither held nor cached, and none that an edit let go while a job that is out refers to it. Whenever
 * all is taken back, and where the session is closed, each surface has come back.
 */
#include "surface_model.h"

static uint64_t drawn_from;
static uint64_t landed_last;
/* How many surfaces were landed, and how many came back by each of the calls. */
static unsigned long landed, stale, refused, dropped, uncached, released, closed;

static size_t drawn(size_t below)
{
    drawn_from = drawn_from * 6364136223846793005u + 1442695040888963407u;
    return (size_t)(drawn_from >> 33) % below;
}

/* An IDR picture with its sets, of which pictures refer to three others; or a P picture with this frame_num that names three. */
static size_t write_text(uint8_t *text, unsigned frame_num)
{
    static const uint8_t idr[] = {0, 0, 1, 0x67, 0x42, 0, 0x0A, 0xD9, 0x1E, 0x40, 0, 0, 1, 0x68, 0xCE, 0x38, 0x80,
                                  0, 0, 1, 0x65, 0x88, 0x84, 0x80};
    const uint8_t other[] = {0, 0, 1, 0x41, (uint8_t)(0x9A | frame_num >> 3), (uint8_t)((frame_num & 7) << 5 | 0x16), 0x60};
    const size_t count = frame_num == 0 ? sizeof idr : sizeof other;
    memcpy(text, frame_num == 0 ? idr : other, count);
    text[count] = (uint8_t)(0x81 + drawn(3));
    return count + 1;
}

/* The frame_num that a unit at a place has to have, which follow each other from the last IDR picture on. */
static unsigned next_frame_num(size_t place)
{
    cupdaisy_request request;
    while (place-- > 0)
        if (cupdaisy_unit_request(&session, units[place].id, 0, &request) == CUPDAISY_DONE)
            return (unsigned)(request.decode_params.frame_num + 1) % 16;
    return 0;
}

static uint32_t load_some(void)
{
    uint8_t text[4 * ROOM];
    cupdaisy_load_receipt receipt;
    size_t length = 0;
    for (unsigned frame_num = 0; frame_num < 3; frame_num++)
        length += write_text(text + length, frame_num);
    uint32_t status = cupdaisy_load(&session, text, length, &receipt);
    EXPECT(status == CUPDAISY_DONE ? receipt.units == 3 : receipt.units < 3);
    return status;
}

/* A deletion and an insertion in one step. */
static uint32_t group_some(size_t place)
{
    uint8_t text[ROOM];
    cupdaisy_group_receipt receipt;
    uint32_t ids[2];
    const size_t length = write_text(text, next_frame_num(place));
    cupdaisy_edit asked[] = {{CUPDAISY_INSERT_AFTER, units[place].id, 0, length}, {CUPDAISY_DELETE, units[place].id, 0, 0}};
    return cupdaisy_group(&session, asked, 2, text, length, ids, 2, &receipt);
}

static uint32_t edit_some(void)
{
    uint8_t text[ROOM];
    cupdaisy_receipt receipt;
    const size_t place = unit_count > 0 ? drawn(unit_count) : 0;
    const size_t kind = unit_count == 0 ? 0 : unit_count >= MOST_UNITS ? 6 + drawn(4) : drawn(12);
    if (kind == 0)
        return cupdaisy_insert_first(&session, text, write_text(text, 0), &receipt);
    if (kind == 1 && unit_count + 3 <= MOST_UNITS)
        return load_some();
    if (kind <= 4)
        return cupdaisy_insert_last(&session, text, write_text(text, next_frame_num(unit_count)), &receipt);
    if (kind == 5)
        return cupdaisy_insert_after(&session, units[place].id, text, write_text(text, next_frame_num(place + 1)), &receipt);
    if (kind <= 7)
        return cupdaisy_delete(&session, units[kind == 6 ? place : unit_count - 1].id, &receipt);
    if (kind == 8)
        return group_some(place);
    return cupdaisy_replace(&session, units[place].id, text, write_text(text, next_frame_num(place)), &receipt);
}

static void leave(size_t job)
{
    landed_last = jobs[job].number;
    memmove(jobs + job, jobs + job + 1, (--job_count - job) * sizeof jobs[0]);
}

static void give_all_back(void)
{
    while (job_count > 0) {
        EXPECT(cupdaisy_give_back(&session, jobs[0].number) == CUPDAISY_DONE);
        leave(0);
    }
}

/* Takes back what is gone, where no memory was found to cache some of it, so that nobody knows what is cached. */
static void take_back_gone(void)
{
    uint64_t some[SURFACES + 1];
    size_t count = 0;
    give_all_back();
    EXPECT(cupdaisy_released(&session, some, SURFACES, &count) == CUPDAISY_DONE);
    released += count;
    for (; count <= SURFACES && cupdaisy_uncache(&session, &some[count]) == CUPDAISY_DONE; count++)
        uncached++;
    for (size_t i = 0; i < count; i++) {
        EXPECT(some[i] < SURFACES && (surfaces[some[i]].place == GONE || surfaces[some[i]].place == RELEASED));
        surfaces[some[i]].place = HOST;
    }
    for (size_t number = 0; number < SURFACES; number++)
        EXPECT(surfaces[number].place == HOST || surfaces[number].place == HELD);
    group_count = 0;
}

/* An edit, now and then with a growth of memory refused. It is made then, or nothing changes; but a load ends. */
static void edit(void)
{
    const size_t growth = drawn(16) == 0 ? growths + 1 + drawn(16) : 0;
    refuse_at = growth;
    uint32_t status = edit_some();
    refuse_at = 0;
    EXPECT(status == CUPDAISY_DONE || (status == CUPDAISY_MEMORY && growth != 0 && growths >= growth));
    refused += status == CUPDAISY_MEMORY;
    read_units();
    take_back();
    let_go();
    if (growth != 0 && growths >= growth)
        take_back_gone();
}

/* A job that was taken is of a unit's picture that isn't held and isn't out, and refers to surfaces with what that needs. */
static void take(void)
{
    cupdaisy_job job;
    if (job_count == MOST_JOBS)
        return;
    refuse_at = drawn(8) == 0 ? growths + 1 : 0;
    uint32_t status = unit_count > 0 && drawn(2) == 0 ? cupdaisy_take_for(&session, units[drawn(unit_count)].id, &job)
                                                      : cupdaisy_take(&session, &job);
    EXPECT(status == CUPDAISY_DONE || status == CUPDAISY_NOTHING_DUE || (status == CUPDAISY_MEMORY && refuse_at != 0));
    refuse_at = 0;
    if (status != CUPDAISY_DONE)
        return;
    cupdaisy_job_input input;
    size_t place = 0;
    while (place < unit_count && units[place].id != job.unit)
        place++;
    EXPECT(place < unit_count && held_with(units[place].content) == SURFACES);
    EXPECT(cupdaisy_job_input_of(&session, job.number, &input) == CUPDAISY_DONE && input.references <= MOST_REFERENCES);
    jobs[job_count].number = job.number;
    jobs[job_count].reference_count = (size_t)input.references;
    for (size_t i = 0; i < input.references; i++) {
        EXPECT(cupdaisy_job_reference(&session, job.number, i, &jobs[job_count].references[i]) == CUPDAISY_DONE);
        EXPECT(jobs[job_count].references[i].surface < SURFACES && surfaces[jobs[job_count].references[i].surface].place == HELD);
    }
    jobs[job_count].content = content_of_job(job_count);
    EXPECT(jobs[job_count].content == units[place].content);
    for (size_t other = 0; other < job_count; other++)
        EXPECT(jobs[other].content != jobs[job_count].content);
    job_count++;
}

/* A surface that the host may decode into, or SURFACES. */
static size_t free_surface(void)
{
    size_t number = drawn(SURFACES);
    for (size_t turn = 0; turn < SURFACES; turn++, number = (number + 1) % SURFACES)
        if (surfaces[number].place == HOST && !is_referred(number))
            return number;
    return SURFACES;
}

static void uncache(void)
{
    uint64_t number = SURFACES;
    uint32_t status = cupdaisy_uncache(&session, &number);
    EXPECT((status == CUPDAISY_DONE) == (cached() > 0) && (status == CUPDAISY_DONE || status == CUPDAISY_NOT_HELD));
    if (status != CUPDAISY_DONE) {
        EXPECT(number == SURFACES);
        return;
    }
    EXPECT(number < SURFACES);
    for (size_t group = 0; group < group_of((size_t)number); group++)
        EXPECT(groups[group].members == groups[group].pushed);
    leave_group((size_t)number, true, HOST);
    uncached++;
}

static void reclaim(size_t room)
{
    uint64_t some[SURFACES];
    size_t count = SURFACES;
    EXPECT(cupdaisy_released(&session, some, room, &count) == CUPDAISY_DONE && count <= room);
    for (size_t i = 0; i < count; i++) {
        EXPECT(some[i] < SURFACES && !is_referred(some[i]));
        if (surfaces[some[i]].place == GONE)
            leave_group((size_t)some[i], false, RELEASED);
        EXPECT(surfaces[some[i]].place == RELEASED);
        surfaces[some[i]].place = HOST;
        released++;
    }
    if (count < room)
        expect_referred();
}

static void drop(void)
{
    uint64_t number = SURFACES;
    if (unit_count == 0)
        return;
    const size_t place = drawn(unit_count);
    const size_t held = shown_by(place);
    uint32_t status = cupdaisy_drop_picture(&session, units[place].id, &number);
    EXPECT(status == (held < SURFACES ? CUPDAISY_DONE : CUPDAISY_NOT_HELD) && number == held);
    if (held < SURFACES) {
        surfaces[held].place = HOST;
        dropped++;
    }
}

/* Lands a job that is out, or one that isn't. With no surface for it, one is taken back or the job given back. */
static void land(void)
{
    const size_t number = free_surface();
    if (number == SURFACES && job_count > 0 && drawn(4) == 0) {
        EXPECT(cupdaisy_give_back(&session, jobs[0].number) == CUPDAISY_DONE);
        leave(0);
    } else if (number == SURFACES)
        drop();
    else if (job_count == 0 || drawn(12) == 0)
        EXPECT(cupdaisy_land(&session, landed_last, number) == CUPDAISY_NO_SUCH_JOB);
    else {
        const size_t job = drawn(job_count);
        surfaces[number].content = content_of_job(job);
        EXPECT(surfaces[number].content == jobs[job].content);
        const bool is_wanted = unit_with(jobs[job].content) < unit_count && held_with(jobs[job].content) == SURFACES;
        EXPECT(cupdaisy_land(&session, jobs[job].number, number) == (is_wanted ? CUPDAISY_DONE : CUPDAISY_STALE));
        surfaces[number].place = is_wanted ? HELD : HOST;
        landed += is_wanted;
        stale += !is_wanted;
        leave(job);
    }
}

/* Gives all jobs back and takes all back: what the session still has is held. */
static void take_all_back(void)
{
    give_all_back();
    reclaim(SURFACES);
    while (cached() > 0)
        uncache();
    uncache();
    for (size_t number = 0; number < SURFACES; number++)
        EXPECT(surfaces[number].place == HOST || surfaces[number].place == HELD);
}

/* After it all surfaces are the host's. */
static void close_session(void)
{
    EXPECT(cupdaisy_close(&session) == CUPDAISY_DONE && blocks == 0);
    for (size_t number = 0; number < SURFACES; number++) {
        closed += surfaces[number].place != HOST;
        surfaces[number].place = HOST;
    }
    EXPECT(landed == dropped + uncached + released + closed);
}

static void open_session(void)
{
    group_count = job_count = unit_count = 0;
    landed_last = 0;
    cache = 1 + drawn(8);
    EXPECT(cupdaisy_open(&session, (uint16_t)cache) == CUPDAISY_DONE);
}

static void call(void)
{
    const size_t kind = drawn(1000);
    if (kind < 300)
        edit();
    else if (kind < 600)
        take();
    else if (kind < 850)
        land();
    else if (kind < 890)
        drop();
    else if (kind < 930)
        uncache();
    else if (kind < 990)
        reclaim(drawn(4));
    else if (kind < 998)
        take_all_back();
    else {
        close_session();
        open_session();
    }
    look();
}

int main(int count, char **words)
{
    const unsigned long most = count > 1 ? strtoul(words[1], NULL, 10) : 5000;
    seed = count > 2 ? strtoul(words[2], NULL, 10) : 1;
    drawn_from = seed;
    open_session();
    for (calls = 1; calls <= most; calls++)
        call();
    take_all_back();
    close_session();
    printf("%lu calls, %lu stale, %lu refused, %lu held again; of %lu surfaces came back: %lu dropped, %lu uncached, %lu released, "
           "%lu by closing\n", most, stale, refused, held_again, landed, dropped, uncached, released, closed);
    return 0;
}
