/*
 * cupdaisy.h: a session over a stream of H.264 access units under edits, for programs that call C.
 *
 * A session keeps a stream. Edits insert, delete and replace access units, given as the bytes of their text in the byte
 * stream format (ITU-T H.264, Annex B). Of each unit the session says whether it can be decoded, and by which requests of
 * the Linux kernel's stateless decoder interface; when an edit changes what a picture is made of, it asks for that picture
 * anew, and for no other. What the calls answer of the session is proved; see docs/C.md.
 *
 * Nothing is decoded here. A surface is a number by which the host knows where it decoded a picture to; any will do. The
 * session has the surfaces that are landed: it says which one has a unit's picture as the stream is now, and of which ones a
 * job's picture is made. It gives each back once, by cupdaisy_drop_picture, cupdaisy_uncache or cupdaisy_released, and all that
 * it has by cupdaisy_close. What was landed and didn't come back is just what is held for units, cached or released.
 *
 * What C owes, which nothing checks:
 *   - Whoever lands a surface owes that the host's decoder made its picture of the job's requests, and of the pictures in the
 *     surfaces of the job's references. It stays in the surface until that comes back. A surface that came back while a job that
 *     is out refers to it isn't decoded into before that job was landed or given back.
 *   - No surface is landed that the session still has.
 *   - A handle is all zeros before its first use (CUPDAISY_NONE), afterwards as a call left it. It is never copied, and
 *     each field is the library's.
 *   - Each pointer points to memory of its type; none is null, also where a count is 0. No two of a call overlap, but for
 *     memory that is only read.
 *   - One call at a time has a handle. Threads may hand it on, ordered by a lock, a join or the like.
 *   - malloc, realloc and free are of one family, and align as the C standard says.
 *   - No call is made from a signal handler, nor in the child of a fork of a program with threads.
 *
 * No call blocks, starts a thread, ends the process, or keeps a pointer of the caller's. Calls on several handles may run
 * at one time. A call takes memory where its line says so, and may then answer CUPDAISY_MEMORY, having changed nothing; it
 * may be made again.
 *
 * Each call answers a status: 0, the number of a refusal (cupdaisy_status_name has its name), or one of this header's from
 * 100 on. It writes what its out-parameters are for where the status is CUPDAISY_DONE, whole, and with any other status it
 * leaves them as they were, unless its line says otherwise. With a handle that has no session each call but cupdaisy_open
 * answers CUPDAISY_NO_SESSION.
 */
#ifndef CUPDAISY_H
#define CUPDAISY_H

#include <stdbool.h>
#include <stddef.h>
#include <stdint.h>
#ifdef __linux__
#include <linux/v4l2-controls.h>
#endif

#ifdef __cplusplus
extern "C" {
#endif

/* Statuses. Those up to 18, and 20 and 21, are numbers of refusals, as the program `preview` prints them. */
#define CUPDAISY_DONE 0           /* the call did what it says */
#define CUPDAISY_MEMORY 15        /* a growth of memory was refused */
#define CUPDAISY_NO_SUCH_UNIT 16  /* no unit has the id */
#define CUPDAISY_NO_SESSION 100   /* the handle has no session */
#define CUPDAISY_IS_OPEN 101      /* the handle has a session already */
#define CUPDAISY_CACHE_RANGE 102  /* the capacity of the cache is out of its range */
#define CUPDAISY_TOO_SMALL 103    /* what the caller gives has no room for what is asked */
#define CUPDAISY_NO_SUCH_PLACE 104 /* no unit stands at the place, no edit of the journal or reference has the index */
#define CUPDAISY_NO_SUCH_JOB 105  /* no job of the number is out */
#define CUPDAISY_NO_SUCH_SLICE 106 /* the picture has no slice of the index */
#define CUPDAISY_NOT_VALID 107    /* the unit isn't valid: it has a fault, or no slice */
#define CUPDAISY_NOTHING_DUE 108  /* no picture is due */
#define CUPDAISY_JOBS_SPENT 109   /* all numbers of jobs were given */
#define CUPDAISY_STALE 110        /* the result of the job is wanted no more */
#define CUPDAISY_NOT_HELD 111     /* the unit isn't valid, its picture isn't held, or the cache is empty */
#define CUPDAISY_PENDING 112      /* the unit is valid, and its picture isn't held */
#define CUPDAISY_HAS_FAULT 113    /* the unit has a fault, which cupdaisy_outcome_of tells */
#define CUPDAISY_NO_PICTURE 114   /* the unit has no slice, so that it has no picture */
#define CUPDAISY_NOT_AN_EDIT 115  /* an edit of a group is of no kind, or its text isn't within the bytes */
#define CUPDAISY_NO_WEIGHTS 116   /* the slice has no weight table */
#define CUPDAISY_NO_SUCH_NAME 117 /* no status, fault or reason has the number */
#define CUPDAISY_SEVERAL_SLICES 118 /* without start codes a picture of several slices has no bytes */

/* A session, or none. */
typedef struct cupdaisy_session {
    void *at;
    bool full;
} cupdaisy_session;

/* A handle without a session: all zeros. In C++ no null pointer is written as 0. */
#ifdef __cplusplus
#define CUPDAISY_NONE {}
#else
#define CUPDAISY_NONE {0, false}
#endif

/* What an accepted edit is told. */
typedef struct cupdaisy_receipt {
    uint64_t number; /* how many edits and groups were accepted, with this one */
    uint64_t steps;  /* how many steps of the fold over the stream it made */
    uint64_t hashed; /* how many bytes were hashed for it: those of the slices that it brings, once */
    uint64_t changed_from;  /* the least range of places, of the stream after it, that has every unit which wasn't there before or */
    uint64_t changed_count; /* has another outcome or key: its first place, and how many units it has; 0 and 0 where there is none */
    uint32_t id;     /* the unit that was inserted, deleted or replaced; ids are 1, 2, 3 and so on, and never given twice */
} cupdaisy_receipt;

/* A unit's outcome. What isn't of its kind is 0. */
#define CUPDAISY_PLAN 0  /* it is valid */
#define CUPDAISY_FAULT 1 /* it has a fault, so that it can't be decoded */
#define CUPDAISY_EMPTY 2 /* it has no slice, so that it has no picture */
typedef struct cupdaisy_outcome {
    uint32_t kind;          /* one of the three above */
    uint32_t fault;         /* of a fault: its number, from 1 on */
    int32_t top;            /* TopFieldOrderCnt, before memory_management_control_operation 5 resets it (8.2.1) */
    int32_t bottom;         /* BottomFieldOrderCnt, before that */
    int32_t order;          /* the picture order count that the picture has from then on */
    uint32_t begins_period; /* 1 where output order begins anew at it: an IDR picture, or one with operation 5; else 0 */
    uint64_t slices;        /* how many slices it has, each with its request */
} cupdaisy_outcome;

/*
 * What is told of a unit behind a damage. A fault is local: a picture behind it may be valid by its numbers and yet be made of other
 * frames than its encoder meant. docs/C.md says which pictures are in doubt, and which wrong ones aren't found.
 */
typedef struct cupdaisy_doubt {
    uint32_t follows;  /* the unit that shows the damage, where no valid IDR picture stands behind it up to this one; else 0 */
    uint32_t in_doubt; /* 1 where this unit is valid and its picture may be made of other frames than were meant; else 0 */
} cupdaisy_doubt;

/* A job that was taken: a picture to decode. */
typedef struct cupdaisy_job {
    uint64_t number; /* jobs are 1, 2, 3 and so on */
    uint32_t unit;   /* the first unit of the stream that has this picture; of cupdaisy_take_for the one that is needed */
} cupdaisy_job;

/* What a job is made of. */
typedef struct cupdaisy_job_input {
    uint64_t unit;       /* the unit whose requests it has */
    uint64_t slices;     /* how many slices it has, each with its request */
    uint64_t references; /* how many references it has */
} cupdaisy_job_input;

/* A picture that the requests of a job may refer to: reference_ts of the decoded picture buffer, and its surface. */
typedef struct cupdaisy_reference {
    uint64_t timestamp;
    uint64_t surface;
} cupdaisy_reference;

/* The kinds of edits. */
#define CUPDAISY_INSERT_FIRST 0
#define CUPDAISY_INSERT_AFTER 1
#define CUPDAISY_DELETE 2
#define CUPDAISY_REPLACE 3

/* An edit of a group: its text is `count` bytes of all texts of the group, from the byte `from` on. */
typedef struct cupdaisy_edit {
    uint32_t kind; /* one of the four above */
    uint32_t id;   /* the id that it names; not read where it names none */
    size_t from;   /* not read of a deletion, and so is count */
    size_t count;
} cupdaisy_edit;

/* What a group is told beside its ids. */
typedef struct cupdaisy_group_receipt {
    uint64_t number; /* how many edits and groups were accepted, with this one */
    uint64_t steps;  /* how many steps of the fold over the stream it made */
    uint64_t hashed; /* how many bytes were hashed for its edits */
    uint64_t changed_from;  /* as of an edit's receipt: what wasn't so before the group */
    uint64_t changed_count;
    uint64_t index;  /* which edit is why the group isn't made, from 0 on; else 0 */
} cupdaisy_group_receipt;

/* What a load is told. Its units have the ids first, first + 1 and so on, as many as units. */
typedef struct cupdaisy_load_receipt {
    uint64_t number; /* how many edits and groups were accepted, with the last one of these; 0 where none was */
    uint64_t steps;  /* how many steps of the fold over the stream they made */
    uint64_t hashed; /* how many bytes were hashed for them */
    uint64_t units;  /* how many units were inserted */
    uint64_t changed_from;  /* the place of the first of them */
    uint64_t changed_count; /* how many they are */
    uint64_t index;  /* which access unit the stream is refused for, from 0 on; else 0 */
    uint32_t first;  /* the id of the first unit; 0 where none was inserted */
} cupdaisy_load_receipt;

/* An edit of the journal. */
typedef struct cupdaisy_journal_edit {
    uint32_t kind;  /* one of the four above */
    uint32_t id;    /* the id that it names; 0 where it names none */
    uint64_t bytes; /* how many bytes its text has */
} cupdaisy_journal_edit;

/* Why bytes are left out of a text that is mended. */
#define CUPDAISY_WHY_NOT_NAL_UNIT 1       /* they stand before the first start code */
#define CUPDAISY_WHY_EMPTY 2              /* no byte follows the start code */
#define CUPDAISY_WHY_FORBIDDEN_BYTES 3    /* the NAL unit holds a sequence that none may hold (7.4.1) */
#define CUPDAISY_WHY_FORBIDDEN_BIT 4      /* forbidden_zero_bit is 1, which marks the NAL unit as damaged */
#define CUPDAISY_WHY_UNIT_TYPE 5          /* the NAL unit is of a type that isn't read */
#define CUPDAISY_WHY_UNREAD_SPS 6         /* a sequence parameter set that can't be read */
#define CUPDAISY_WHY_UNREAD_PPS 7         /* a picture parameter set that can't be read */
#define CUPDAISY_WHY_SWITCHING 8          /* a slice of type SP or SI */
#define CUPDAISY_WHY_IDR_NOT_INTRA 9      /* a P or B slice of an IDR picture */
#define CUPDAISY_WHY_IDR_NOT_REFERENCE 10 /* a slice of an IDR picture whose nal_ref_idc is 0 */
#define CUPDAISY_WHY_TOO_LARGE 11         /* the access unit has more than 4,194,304 bytes or 256 slices */

/* Bytes that are left out of a text that is mended. */
typedef struct cupdaisy_left_out {
    uint64_t byte;      /* the place of the first in the text, from 0 on */
    uint64_t bytes;     /* how many they are; of an access unit the bytes of its NAL units, with start codes of three bytes */
    uint32_t why;       /* one of the eleven above */
    uint32_t unit_type; /* of CUPDAISY_WHY_UNIT_TYPE: nal_unit_type; else 0 */
} cupdaisy_left_out;

#ifdef __linux__
/*
 * The request of a slice: the controls of the kernel's stateless decoder interface but the weights, filled, and what else
 * a decoder is told. A host that has a real driver knows:
 *   - Drivers differ in whether the start code belongs to the slice's bytes: V4L2_STATELESS_H264_START_CODE_NONE wants the
 *     bytes from unit_begins on; header_bit_size stays.
 *   - A CAPTURE buffer keeps its timestamp while it is queued anew, and a unit keeps its id when it is replaced; so each
 *     decode gets a timestamp of its own, and each reference_ts of the decoded picture buffer is rewritten: to that of the
 *     surface which the job's reference with this timestamp names.
 *   - An entry of a list whose fields are 0 is missing, whatever its index.
 *   - 8-bit 4:2:0 is all that some drivers take.
 *   - Most drivers are frame-based: one request is for a whole picture. cupdaisy_frame has that.
 */
typedef struct cupdaisy_request {
    uint64_t timestamp;   /* of the unit, in nanoseconds */
    uint64_t bytes;       /* how many bytes the slice has, with a start code of three bytes */
    uint32_t unit_begins; /* where the NAL unit begins among them */
    uint32_t hold;        /* 1 where the capture buffer is held, as more slices of the picture follow; else 0 */
    uint32_t has_weights; /* 1 where the slice has a weight table, else 0 */
    struct v4l2_ctrl_h264_pps pps;
    struct v4l2_ctrl_h264_sps sps;
    struct v4l2_ctrl_h264_scaling_matrix scaling_matrix;
    struct v4l2_ctrl_h264_slice_params slice_params;
    struct v4l2_ctrl_h264_decode_params decode_params;
} cupdaisy_request;

/*
 * The request of a whole picture, for drivers of V4L2_STATELESS_H264_DECODE_MODE_FRAME_BASED: the sets, matrices and decode
 * parameters of its first slice, with V4L2_H264_DECODE_PARAM_FLAG_PFRAME where a slice is P and none is B, and _BFRAME where one
 * is B. It has no slice parameters and no weights. Slices under several picture parameter sets can't be told by it.
 */
typedef struct cupdaisy_frame {
    uint64_t timestamp; /* of the unit, in nanoseconds */
    uint64_t bytes;     /* how many bytes the slices have together, each with a start code of three bytes */
    uint64_t slices;    /* how many slices the picture has */
    struct v4l2_ctrl_h264_sps sps;
    struct v4l2_ctrl_h264_pps pps;
    struct v4l2_ctrl_h264_scaling_matrix scaling_matrix;
    struct v4l2_ctrl_h264_decode_params decode_params;
} cupdaisy_frame;
#endif

/*
 * Opens a session with an empty stream. Its cache has room for so many pictures of units that are gone, 1 to 4,096. Takes
 * memory.
 * IS_OPEN where the handle has a session, which stays; CACHE_RANGE; MEMORY.
 */
uint32_t cupdaisy_open(cupdaisy_session *session, uint16_t cache);

/* Closes the session and frees all that it has. All surfaces are the host's then. The handle may be opened again. */
uint32_t cupdaisy_close(cupdaisy_session *session);

/*
 * Edits. The text is that of one access unit, and is copied. The first of these that holds is the status: the refusal of
 * the text, 1 to 14; NO_SUCH_UNIT (16); 17 where the stream has 65,536 units; 18 where all ids were given; MEMORY may
 * stand in for any of them. A refused edit changes nothing and spends no id. All take memory.
 */

/* Inserts a unit before all others. */
uint32_t cupdaisy_insert_first(cupdaisy_session *session, const uint8_t *text, size_t text_length, cupdaisy_receipt *receipt);

/* Inserts a unit directly after that of the id. */
uint32_t cupdaisy_insert_after(cupdaisy_session *session, uint32_t id, const uint8_t *text, size_t text_length,
                               cupdaisy_receipt *receipt);

/* Inserts a unit after all others. */
uint32_t cupdaisy_insert_last(cupdaisy_session *session, const uint8_t *text, size_t text_length, cupdaisy_receipt *receipt);

/* Takes the unit of the id out. */
uint32_t cupdaisy_delete(cupdaisy_session *session, uint32_t id, cupdaisy_receipt *receipt);

/* Puts another unit in the place of that of the id, under the same id. */
uint32_t cupdaisy_replace(cupdaisy_session *session, uint32_t id, const uint8_t *text, size_t text_length,
                          cupdaisy_receipt *receipt);

/*
 * Makes edits together, as one step: all of them, each on the stream that those before it left, or none. An edit may name an
 * id that one before it gave. `ids` has room for one id an edit at least; the first are the units that were inserted, deleted
 * or replaced, in the order of the edits. The texts are copied. Takes memory.
 * The first of these that holds is the status: TOO_SMALL where `ids` has less room; NOT_AN_EDIT; 20 for no edit, 21 for more
 * than 1,024; the refusal of the first edit that is refused, as above. MEMORY may stand in for any of them but TOO_SMALL. With
 * NOT_AN_EDIT and the refusal of an edit `receipt` is written, whole, and tells which edit it is; MEMORY tells none. `ids` is
 * written with DONE alone.
 */
uint32_t cupdaisy_group(cupdaisy_session *session, const cupdaisy_edit *edits, size_t edits_length, const uint8_t *texts,
                        size_t texts_length, uint32_t *ids, size_t ids_length, cupdaisy_group_receipt *receipt);

/*
 * Inserts the access units of a byte stream after the last unit, each by an edit. A stream that is refused inserts none: 1
 * where the text doesn't split into NAL units; the refusal of its first access unit that is refused, 2 to 14; 17 where there
 * are more than there is room for. An edit that is refused, 18 or MEMORY, ends it, and those before it stay. MEMORY may stand
 * in for any refusal, with no unit inserted. `receipt` is written with each status but NO_SESSION. Takes memory, for each
 * access unit's text too.
 */
uint32_t cupdaisy_load(cupdaisy_session *session, const uint8_t *text, size_t text_length, cupdaisy_load_receipt *receipt);

/*
 * Mends a byte stream as it comes from a file or a network: `bytes` is the text without what cupdaisy_load refuses, with an access unit
 * delimiter where two pictures would be taken for one (docs/OUTPUT.md, "mend"). A text that isn't refused stays as it is. What stays isn't
 * refused, but for how many access units it has (17), or where it is empty: no NAL unit stays. It needs no session.
 * `needed` is how many bytes stay, and `count` how often some are left out: of these as many as `left_out` has room for are written, the
 * first ones, and the rest of it stays as it was. The bytes have to have no more room than the text and a delimiter of five bytes for each
 * of its slices; so a buffer of 9 bytes for each 4 of the text is enough.
 * TOO_SMALL where `bytes` has less room: `bytes` stays as it was, and all else is written. Takes memory, for what stays too. MEMORY.
 */
uint32_t cupdaisy_mend(const uint8_t *text, size_t text_length, uint8_t *bytes, size_t bytes_length, size_t *needed,
                       cupdaisy_left_out *left_out, size_t left_out_length, size_t *count);

/* How many units the stream has. */
uint32_t cupdaisy_units(cupdaisy_session *session, size_t *units);

/* The id of the unit at a place, from 0 on in decoding order. NO_SUCH_PLACE past the end. */
uint32_t cupdaisy_id_at(cupdaisy_session *session, size_t place, uint32_t *id);

/* The place of the unit of the id. NO_SUCH_UNIT. */
uint32_t cupdaisy_place(cupdaisy_session *session, uint32_t id, size_t *place);

/* The position of the unit of the id in output order, from 0 on. NO_SUCH_UNIT, NOT_VALID. */
uint32_t cupdaisy_position(cupdaisy_session *session, uint32_t id, size_t *position);

/* The id of the unit at a position in output order. NO_SUCH_PLACE where no unit has it. */
uint32_t cupdaisy_unit_at(cupdaisy_session *session, size_t position, uint32_t *id);

/* The outcome of the unit of the id. NO_SUCH_UNIT. */
uint32_t cupdaisy_outcome_of(cupdaisy_session *session, uint32_t id, cupdaisy_outcome *outcome);

/*
 * Which units follow a damage, and which of them are in doubt: of those from the place `from` on, as many as `doubts` has room for,
 * or up to the last one. `count` of them are written, none where `from` is past the end, and the rest of `doubts` stays as it was.
 * It takes a time that grows with the units from the last valid IDR picture before `from` on. Takes memory. MEMORY.
 */
uint32_t cupdaisy_doubts(cupdaisy_session *session, size_t from, cupdaisy_doubt *doubts, size_t doubts_length, size_t *count);

/*
 * The number of the key of the unit of the id: of all that its picture is made of. Units have equal numbers exactly where
 * their pictures are made alike, and a number stays while a unit has its key. NO_SUCH_UNIT, NOT_VALID.
 */
uint32_t cupdaisy_key(cupdaisy_session *session, uint32_t id, uint64_t *key);

/* Whether a number is that of a key in use, which some unit of the stream has: 1, else 0. It looks at each unit. */
uint32_t cupdaisy_in_use(cupdaisy_session *session, uint64_t key, uint32_t *in_use);

/*
 * Marks the stream as it is: the keys of its valid units are remembered, whether units have them later or not. It takes the place of
 * an earlier mark, and edits leave it. Takes memory: 8 bytes a valid unit, and one for each number up to the greatest that a unit's
 * key has then (cupdaisy_key). MEMORY.
 */
uint32_t cupdaisy_mark(cupdaisy_session *session);

/*
 * Whether the unit of the id is altered: 1 where it is valid, the stream was marked, and no unit had its key then; else 0. So a unit
 * that was deleted and inserted again isn't altered, and one that lists a deleted one is. NO_SUCH_UNIT.
 */
uint32_t cupdaisy_is_altered(cupdaisy_session *session, uint32_t id, uint32_t *altered);

/*
 * What is shown of the unit of the id: the surface of its picture as the stream is now, whatever was decoded before. Units whose
 * pictures are made alike have one surface. Takes no memory.
 * PENDING where the picture isn't held: take jobs, decode and land them; HAS_FAULT; NO_PICTURE; NO_SUCH_UNIT.
 */
uint32_t cupdaisy_show(cupdaisy_session *session, uint32_t id, uint64_t *surface);

/*
 * Takes a job: the earliest picture of the stream that isn't held and isn't out as a job, and whose references are all
 * held. Takes memory.
 * NOTHING_DUE where there is none; JOBS_SPENT; MEMORY.
 */
uint32_t cupdaisy_take(cupdaisy_session *session, cupdaisy_job *job);

/*
 * Takes a job that the unit of the id needs: of its own picture and of those that it is made from, down to pictures that are
 * held, the earliest of the stream that isn't out as a job and whose references are all held. So a host that shows one unit
 * decodes what it needs and no more. Takes memory.
 * NOTHING_DUE where there is none: while the unit's picture isn't held, only where a picture that it needs is out as a job.
 * Also for an id that no unit has, and a unit that isn't valid. JOBS_SPENT; MEMORY.
 */
uint32_t cupdaisy_take_for(cupdaisy_session *session, uint32_t id, cupdaisy_job *job);

/*
 * Lands the job of the number: the host's decoder made this surface's picture of the job's requests and of the pictures in the
 * surfaces of its references. It is held from then on, and the session has the surface until it gives it back. Jobs may land in
 * any order, and late. Takes no memory.
 * STALE where the picture isn't wanted any more, or is held already: the job is out no more, and the surface is still the host's.
 * NO_SUCH_JOB, and the surface is still the host's.
 */
uint32_t cupdaisy_land(cupdaisy_session *session, uint64_t job, uint64_t surface);

/* Gives the job of the number back, so that its picture is given to decode again. NO_SUCH_JOB. */
uint32_t cupdaisy_give_back(cupdaisy_session *session, uint64_t job);

/*
 * Gives back the surface of the unit's picture, to be used for another: the picture isn't held any more, nor is it cached, and a
 * job may make it again. Units that have one picture share that. Jobs that are out stay, and may still refer to the surface.
 * Takes no memory.
 * NOT_HELD where the unit isn't valid, or its picture isn't held; NO_SUCH_UNIT.
 */
uint32_t cupdaisy_drop_picture(cupdaisy_session *session, uint32_t id, uint64_t *surface);

/*
 * Gives back the surface of the picture that was cached first, of those which no unit has any more, so that no edit takes it
 * back. Jobs that are out may still refer to it. Takes no memory.
 * NOT_HELD where the cache is empty.
 */
uint32_t cupdaisy_uncache(cupdaisy_session *session, uint64_t *surface);

/*
 * Gives back surfaces that edits let go, as the cache had no room for them or found no memory, and to which no job that is out
 * refers. As many as `surfaces` has room for are written, `count` of them, and the rest of it stays as it was. Where `count` is less
 * than there is room for, no more can go back now. Takes no memory.
 */
uint32_t cupdaisy_released(cupdaisy_session *session, uint64_t *surfaces, size_t surfaces_length, size_t *count);

/*
 * What the job of the number, which is out, is made of, as it was when it was taken; and a reference of it by its index, from 0
 * on: each frame that its lists name once, in the order of the decoded picture buffer. NO_SUCH_JOB; NO_SUCH_PLACE.
 */
uint32_t cupdaisy_job_input_of(cupdaisy_session *session, uint64_t job, cupdaisy_job_input *input);
uint32_t cupdaisy_job_reference(cupdaisy_session *session, uint64_t job, size_t index, cupdaisy_reference *reference);

/*
 * The request of a slice, from 0 on: of the unit of the id, as the stream is now; of the job of the number, which is out, as
 * it was when it was taken. NO_SUCH_UNIT, NOT_VALID; NO_SUCH_JOB; NO_SUCH_SLICE; NO_WEIGHTS where the slice has no weight
 * table.
 * The bytes of a slice are its NAL unit after a start code of three bytes. `needed` is how many there are, with
 * CUPDAISY_TOO_SMALL too, where nothing else is written.
 */
#ifdef __linux__
uint32_t cupdaisy_unit_request(cupdaisy_session *session, uint32_t id, size_t slice, cupdaisy_request *request);
uint32_t cupdaisy_unit_weights(cupdaisy_session *session, uint32_t id, size_t slice,
                               struct v4l2_ctrl_h264_pred_weights *weights);
uint32_t cupdaisy_job_request(cupdaisy_session *session, uint64_t job, size_t slice, cupdaisy_request *request);
uint32_t cupdaisy_job_weights(cupdaisy_session *session, uint64_t job, size_t slice,
                              struct v4l2_ctrl_h264_pred_weights *weights);
#endif
uint32_t cupdaisy_unit_bytes(cupdaisy_session *session, uint32_t id, size_t slice, uint8_t *bytes, size_t bytes_length,
                             size_t *needed);
uint32_t cupdaisy_job_bytes(cupdaisy_session *session, uint64_t job, size_t slice, uint8_t *bytes, size_t bytes_length,
                            size_t *needed);

/*
 * The request of a whole picture: of the unit of the id, as the stream is now; of the job of the number, which is out, as it was
 * when it was taken. NO_SUCH_UNIT, NOT_VALID; NO_SUCH_JOB; MEMORY. These take memory.
 * Its bytes are those of all slices, one after the other, each with a start code of three bytes; without start codes the NAL unit
 * of the only slice. They are written as those of a slice are. SEVERAL_SLICES where there are several and `start_codes` is false.
 */
#ifdef __linux__
uint32_t cupdaisy_unit_frame(cupdaisy_session *session, uint32_t id, cupdaisy_frame *frame);
uint32_t cupdaisy_job_frame(cupdaisy_session *session, uint64_t job, cupdaisy_frame *frame);
#endif
uint32_t cupdaisy_unit_frame_bytes(cupdaisy_session *session, uint32_t id, bool start_codes, uint8_t *bytes, size_t bytes_length,
                                   size_t *needed);
uint32_t cupdaisy_job_frame_bytes(cupdaisy_session *session, uint64_t job, bool start_codes, uint8_t *bytes, size_t bytes_length,
                                  size_t *needed);

/*
 * The journal: the accepted edits in order, those of a group as one entry. How many entries it has; how many edits an entry
 * has, from 0 on; an edit of an entry, from 0 on; and its text, as the bytes of a slice are written. NO_SUCH_PLACE.
 */
uint32_t cupdaisy_journal(cupdaisy_session *session, size_t *entries);
uint32_t cupdaisy_journal_entry(cupdaisy_session *session, size_t entry, size_t *edits);
uint32_t cupdaisy_journal_edit_at(cupdaisy_session *session, size_t entry, size_t index, cupdaisy_journal_edit *edit);
uint32_t cupdaisy_journal_text(cupdaisy_session *session, size_t entry, size_t index, uint8_t *text, size_t text_length,
                               size_t *needed);

/*
 * The name of a status, of a fault, of a reason why bytes are left out, and the version, as text without a zero at its end, written as
 * the bytes of a slice are. NO_SUCH_NAME. cupdaisy_version is a million times the major number, a thousand times the minor one, and the
 * patch. These need no session.
 */
uint32_t cupdaisy_status_name(uint32_t status, uint8_t *name, size_t name_length, size_t *needed);
uint32_t cupdaisy_fault_name(uint32_t fault, uint8_t *name, size_t name_length, size_t *needed);
uint32_t cupdaisy_why_name(uint32_t why, uint8_t *name, size_t name_length, size_t *needed);
uint32_t cupdaisy_version(void);
uint32_t cupdaisy_version_text(uint8_t *text, size_t text_length, size_t *needed);

#ifdef __cplusplus
}
#endif

#endif
