/* The waiting at a desk (crates/decode_pool): who sleeps on which of its two conditions, who wakes whom and when.
 *
 * There is one lock, so a critical section is one step here, and so is a notification outside of one. A step names the
 * function that it stands for. `Condvar::wait` lets go of the lock and sleeps in one step; `notify_one` wakes one of those
 * who sleep, if any does; and a wait may end by itself too, as that of a worker does that gives late pictures back.
 *
 * Of a session stands here which pictures are pending, which of those are in a job that is out, and which wait for others
 * that they refer to. An edit may make any range of pictures pending or not, or change nothing, as a refused one; `take`
 * may give any picture that is due, or refuse; a gate may hand any job back. Jobs that are out and whose pictures aren't
 * wanted are only counted, and an edit may want such a picture again. Who has which job isn't told: who brings one brings any
 * that is out, which takes in all that can happen. Seats go on for as long as they like.
 *
 * Told by -D:
 *   JOBS         how many jobs a worker takes at most under one taking of the lock, and lands together; 1 where not told
 *   COUNTED      a desk that counts who sleeps and whom it told to wake up, so that it wakes only where one sleeps who wasn't
 *                told; its workers land and take again in one critical section, and take one job while another has none
 *   CHAIN        each picture refers to the one before it; else 1 and 2 refer to 0, 3 to 1 and 2, and 4 to none
 *   CHANCES      how many waits may end by themselves; 1 where not told
 *   WANTED       told with COUNTED: seats say which picture is wanted first and whether the rest is decoded too, and wait for single
 *                pictures. There are two workers then and three pictures, each of which refers to the one before it. More seats
 *                than there is room for don't wait for pictures here
 *   CLAIM        the claim at the end, for a search for acceptance cycles, in place of what is watched in each state
 *   LOST_WAKEUP  a planted error, by its number
 *
 * Explored whole, with no error, seconds of one processor: one job at a time, 4,340,652 states in 38 s; that with CHAIN,
 * 4,372,723 in 27 s; two jobs, 10,963,139 in 115 s and 1.1 GB. COUNTED for one job, 7,751,042; for two with CHANCES 0,
 * 3,883,996. The claim with CHANCES 0: one job, 3,861,113 in 103 s; COUNTED, 5,548,965 in 149 s; two jobs, of the model before it
 * had the step after 2^63 jobs, 9,987,838 in 254 s and 1.2 GB.
 * WANTED: 8,154,836 in 68 s; with CHANCES 0, 2,390,530 in 16 s.
 */
#ifndef JOBS
#define JOBS 1
#endif
#ifndef CHANCES
#define CHANCES 1
#endif
#ifndef LOST_WAKEUP
#define LOST_WAKEUP 0
#endif
#define WORKERS 3
#define SEATS 2
#ifdef WANTED
#define CHAIN
#define ALL 7     /* the set of all three pictures */
#else
#define ALL 31    /* the set of all five pictures */
#endif

mtype = { looks, asleep, woken, has_lock, busy, tells_on, counts, tells_both, tells_job_due, tells_settled, ended,
          free, sleeps, settles, closes, gone, unlocked, edited };

mtype worker[WORKERS] = looks;
mtype seat[SEATS] = free;
mtype owner = free;

/* What lies under the lock: State, and of its session the pictures of the store. */
byte pending, out;      /* sets of pictures */
byte stale;
bool closed;
#ifdef WANTED
byte ended_workers = 1;
#else
byte ended_workers;
#endif
#ifdef COUNTED
byte told_workers, told_seats;
#endif

#ifdef WANTED
byte listed;            /* the pictures that are wanted first */
bool rest = true;       /* whether the others are decoded too */
byte waited[SEATS];     /* the picture for which each seat waits, if for one */
#endif

byte has[WORKERS];      /* each worker's jobs */
#if CHANCES
byte chances = CHANCES;
#endif

#define COUNT(set) (((set) & 1) + ((set) >> 1 & 1) + ((set) >> 2 & 1) + ((set) >> 3 & 1) + ((set) >> 4 & 1))
#define SOME_WORKER(place) (worker[0] == place || worker[1] == place || worker[2] == place)
#define SOME_SEAT(place) (seat[0] == place || seat[1] == place)
#define WORKERS_IN(place) ((worker[0] == place) + (worker[1] == place) + (worker[2] == place))
#define SEATS_IN(place) ((seat[0] == place) + (seat[1] == place))

/* picture_store, due.rt: is_due */
#ifdef CHAIN
#define BLOCKED (pending << 1)
#else
#define BLOCKED (((pending & 1) -> 6 : 0) | ((pending & 6) -> 8 : 0))
#endif
#define DUE (pending & ~out & ~BLOCKED & ALL)

/* worker_jobs, taking.rt: what a worker may take, first what is due for a wanted picture; and when nobody needs more. */
#ifdef WANTED
#define WANTED_SET (listed | waited[0] | waited[1])
#define WITH_BELOW(set) ((set) | ((set) >> 1 & pending))
#define URGENT (DUE & WITH_BELOW(WITH_BELOW(WANTED_SET & pending)))
#define GIVEN (URGENT -> URGENT : (rest -> DUE : 0))
#define RESTED (!rest && !(pending & WANTED_SET) && !out && !stale)
#define WAITS_FOR_ONE waited[_pid - WORKERS]
#else
#define GIVEN DUE
#define RESTED false
#define WAITS_FOR_ONE false
#endif

/* Workers who sleep differ by nothing, so it's the first of them that is woken: the others would do what it does. */
inline job_due_notify_one() {
    d_step {
        if
        :: worker[0] == asleep -> worker[0] = woken
        :: worker[0] != asleep && worker[1] == asleep -> worker[1] = woken
        :: worker[0] != asleep && worker[1] != asleep && worker[2] == asleep -> worker[2] = woken
        :: else
        fi
    }
}

inline job_due_notify_all() {
    d_step {
        worker[0] = (worker[0] == asleep -> woken : worker[0]);
        worker[1] = (worker[1] == asleep -> woken : worker[1]);
        worker[2] = (worker[2] == asleep -> woken : worker[2])
    }
}

inline settled_notify_all() {
    d_step {
        seat[0] = (seat[0] == sleeps -> settles : seat[0]);
        seat[1] = (seat[1] == sleeps -> settles : seat[1])
    }
}

/* Whom a desk that counts believes to be asleep: they count up to when they have the lock again. */
#define SLEEPING_WORKERS (WORKERS_IN(asleep) + WORKERS_IN(woken))
#define SLEEPING_SEATS (SEATS_IN(sleeps) + SEATS_IN(settles))

/* Desk::tell_edit, and the same of a worker that ends: whom this one is to wake, once it has let go of the lock. */
inline tell(place, after) {
#ifdef COUNTED
    d_step {
        if
        :: told_workers < SLEEPING_WORKERS && told_seats < SLEEPING_SEATS ->
            told_workers++; told_seats = SLEEPING_SEATS; place = tells_both
        :: told_workers < SLEEPING_WORKERS && told_seats >= SLEEPING_SEATS -> told_workers++; place = tells_job_due
        :: told_workers >= SLEEPING_WORKERS && told_seats < SLEEPING_SEATS ->
            told_seats = SLEEPING_SEATS; place = tells_settled
        :: else -> place = after
        fi
    }
#else
    place = tells_both
#endif
}

/* PictureStore::take, where it gives a job. */
inline take() {
    if
    :: GIVEN & 1 -> out = out | 1
    :: GIVEN & 2 -> out = out | 2
    :: GIVEN & 4 -> out = out | 4
    :: GIVEN & 8 -> out = out | 8
    :: GIVEN & 16 -> out = out | 16
    fi;
    has[_pid]++
}

/* PictureStore::land; that of no wanted picture is stale. */
inline land() {
    if
    :: stale -> stale--
    :: d_step { out & 1 -> out = out & ~1; pending = pending & ~1 }
    :: d_step { out & 2 -> out = out & ~2; pending = pending & ~2 }
    :: d_step { out & 4 -> out = out & ~4; pending = pending & ~4 }
    :: d_step { out & 8 -> out = out & ~8; pending = pending & ~8 }
    :: d_step { out & 16 -> out = out & ~16; pending = pending & ~16 }
    fi;
    has[_pid]--
}

/* PictureStore::give_back */
inline give_back() {
    if
    :: stale -> stale--
    :: out & 1 -> out = out & ~1
    :: out & 2 -> out = out & ~2
    :: out & 4 -> out = out & ~4
    :: out & 8 -> out = out & ~8
    :: out & 16 -> out = out & ~16
    fi;
    has[_pid]--
}

/* A worker takes more than one where all others have some or have ended, at a desk that counts. */
#define MAY_TAKE_MORE ((has[0] > 0) + (has[1] > 0) + (has[2] > 0) + ended_workers >= WORKERS)
#if defined(COUNTED) && LOST_WAKEUP != 11
#define HAS_ROOM (!has[_pid] || has[_pid] < JOBS && MAY_TAKE_MORE)
#else
#define HAS_ROOM (has[_pid] < JOBS)
#endif

/* A worker that has taken jobs wakes another: not where it took fewer than it may, since none is left or it is refused more. */
inline tell_on() {
#ifdef COUNTED
    if
    :: tell_one()
    :: has[_pid] < JOBS && HAS_ROOM -> worker[_pid] = busy
    fi
#else
#if LOST_WAKEUP != 3
    job_due_notify_one();
#endif
    worker[_pid] = busy
#endif
}

inline tell_one() {
    if
    :: told_workers < SLEEPING_WORKERS -> told_workers++; worker[_pid] = tells_on
    :: told_workers >= SLEEPING_WORKERS -> worker[_pid] = busy
    fi
}

/* A worker that found no job at its first look wakes the seats that wait. */
inline tell_settled() {
#if LOST_WAKEUP != 4
#ifdef COUNTED
    if
    :: told_seats < SLEEPING_SEATS -> told_seats = SLEEPING_SEATS; settled_notify_all()
    :: else
    fi
#else
    settled_notify_all()
#endif
#else
    skip
#endif
}

#ifdef WANTED
/* Desk::come_back: a worker that brings results wakes the seats that wait, where one of them does for a single picture. */
inline tell_one_picture() {
#if LOST_WAKEUP != 12
    if
    :: told_seats < SLEEPING_SEATS -> told_seats = SLEEPING_SEATS; settled_notify_all()
    :: else
    fi
#else
    skip
#endif
}

/* Desk::settle_for, where a seat begins to wait: it wakes a worker. */
inline tell_wait() {
#if LOST_WAKEUP != 13
    if
    :: told_workers < SLEEPING_WORKERS -> told_workers++; job_due_notify_one()
    :: else
    fi
#else
    skip
#endif
}
#endif

/* working.rt: next_job, from where the lock is taken up to where it's let go of or the worker waits. */
inline next_job(is_first_look) {
    if
    :: closed -> worker[_pid] = counts
    :: !closed && GIVEN -> worker[_pid] = counts    /* take refuses */
    :: !closed && GIVEN ->
        do
        :: GIVEN && HAS_ROOM -> take()
        :: has[_pid] -> break
        od;
        tell_on()
#ifdef WANTED
    :: !closed && WANTED_SET -> worker[_pid] = counts   /* memory runs out for what a wanted picture needs */
#endif
    :: !closed && !GIVEN ->
        if :: is_first_look -> tell_settled() :: else fi;
#if LOST_WAKEUP == 9
        worker[_pid] = unlocked
#else
        worker[_pid] = asleep
#endif
    fi
}

/* Desk::end_worker */
inline end_worker() {
#if LOST_WAKEUP != 10
    ended_workers++;
#endif
    worker[_pid] = has_lock;
    tell(worker[_pid], ended)
}

/* working.rt: worker */
active [WORKERS] proctype Worker() {
#ifdef WANTED
    if
    :: atomic { _pid == 2 -> worker[_pid] = ended; goto end }
    :: _pid != 2
    fi;
#endif
    do
    :: atomic { worker[_pid] == looks -> next_job(true) }
    :: atomic { worker[_pid] == woken ->
        worker[_pid] = has_lock;
#ifdef COUNTED
        told_workers = (told_workers -> told_workers - 1 : 0);
#endif
        next_job(false) }
#if LOST_WAKEUP == 9
    :: atomic { worker[_pid] == unlocked -> worker[_pid] = asleep }
#endif
    :: atomic { worker[_pid] == tells_on -> job_due_notify_one(); worker[_pid] = busy }
    :: atomic { worker[_pid] == busy ->     /* bring, once the gate has answered; what it hasn't decoded is given back */
        do
        :: has[_pid] && worker[_pid] == busy -> land()
        :: has[_pid] -> give_back(); worker[_pid] = counts
        :: !has[_pid] -> break
        od;
#ifdef WANTED
        if :: worker[_pid] == busy && (waited[0] || waited[1]) -> tell_one_picture() :: else fi;
#endif
        if
#ifdef COUNTED
        :: worker[_pid] == busy -> worker[_pid] = has_lock; next_job(true)
        :: worker[_pid] == counts -> end_worker(); if :: worker[_pid] == ended -> break :: else fi
#else
        :: worker[_pid] == busy -> worker[_pid] = looks
        :: worker[_pid] == counts
#endif
        :: worker[_pid] == busy -> worker[_pid] = counts        /* after 2^63 jobs */
        fi }
    :: atomic { worker[_pid] == counts -> end_worker(); if :: worker[_pid] == ended -> break :: else fi }
    :: atomic { worker[_pid] == tells_both ->
#if LOST_WAKEUP != 5
        job_due_notify_one();
#endif
        worker[_pid] = tells_settled }
    :: atomic { worker[_pid] == tells_job_due -> job_due_notify_one(); worker[_pid] = ended; break }
    :: atomic { worker[_pid] == tells_settled ->
#if LOST_WAKEUP != 6
        settled_notify_all();
#endif
#if LOST_WAKEUP == 10
        worker[_pid] = unlocked }
    :: atomic { worker[_pid] == unlocked ->
        ended_workers++;
#endif
        worker[_pid] = ended;
        break }
    od;
end: false
}

#define SEAT seat[_pid - WORKERS]

/* Who changes what is wanted wakes as one who edits does. */
#if LOST_WAKEUP == 14
#define WAKES_FOR_WANTED skip
#else
#define WAKES_FOR_WANTED tell(SEAT, free)
#endif

/* What an edit makes of the pictures of a range: their keys are others, or come back. */
inline edit(range) {
    if
    :: d_step { stale = stale + COUNT(out & (range)); out = out & ~(range); pending = pending | (range) }
    :: d_step { stale = stale + COUNT(out & (range)); out = out & ~(range); pending = pending & ~(range) }
    fi
}

/* Desk::close: who is to be woken then. */
inline close(place, after) {
    closed = true;
#ifdef COUNTED
    if
    :: told_workers < SLEEPING_WORKERS -> told_workers = SLEEPING_WORKERS; place = closes
    :: else -> place = after
    fi
#else
    place = closes
#endif
}

/* The claim has to see each edit, also one after which nobody is woken. */
#ifdef CLAIM
#define AFTER_AN_EDIT edited
#else
#define AFTER_AN_EDIT free
#endif

/* seat.rt: what a seat calls of a desk; show and last take the lock and wake nobody. */
active [SEATS] proctype Seat() {
    do
    :: atomic { SEAT == free ->         /* edit_read, edit_group_read; append_read, whose units are a range */
        if
        :: edit(1)
        :: edit(2)
        :: edit(4)
        :: edit(3)
        :: edit(6)
        :: edit(7)
#ifndef WANTED
        :: edit(8)
        :: edit(16)
        :: edit(12)
        :: edit(24)
        :: edit(14)
        :: edit(28)
        :: edit(15)
        :: edit(30)
        :: edit(31)
        :: d_step { stale && !(out & 8) -> stale--; out = out | 8; pending = pending | 8 }
        :: d_step { stale && !(out & 16) -> stale--; out = out | 16; pending = pending | 16 }
#endif
        :: d_step { stale && !(out & 1) -> stale--; out = out | 1; pending = pending | 1 }
        :: d_step { stale && !(out & 2) -> stale--; out = out | 2; pending = pending | 2 }
        :: d_step { stale && !(out & 4) -> stale--; out = out | 4; pending = pending | 4 }
        :: true
        fi;
        tell(SEAT, AFTER_AN_EDIT) }
#ifdef CLAIM
    :: atomic { SEAT == edited -> SEAT = free }
#endif
    :: atomic { SEAT == tells_both ->        /* Desk::tell_edit */
#if LOST_WAKEUP != 1
        job_due_notify_one();
#endif
        SEAT = tells_settled }
    :: atomic { SEAT == tells_job_due -> job_due_notify_one(); SEAT = free }
    :: atomic { SEAT == tells_settled ->
#if LOST_WAKEUP != 2
        settled_notify_all();
#endif
        SEAT = free }
    :: atomic { (SEAT == free || SEAT == settles) && !WAITS_FOR_ONE ->     /* Desk::settle; it looks at all pictures before it sleeps */
#ifdef COUNTED
        if :: SEAT == settles -> told_seats = (told_seats -> told_seats - 1 : 0) :: else fi;
#endif
        if
        :: pending && !RESTED && ended_workers < WORKERS ->
#if LOST_WAKEUP == 8
            SEAT = unlocked
#else
            SEAT = sleeps
#endif
        :: else -> SEAT = free
        fi }
#if LOST_WAKEUP == 8
    :: atomic { SEAT == unlocked -> SEAT = sleeps }
#endif
#ifdef WANTED
    :: atomic { SEAT == free ->         /* Desk::want, rest */
        if
        :: listed -> listed = 0
        :: listed = 1
        :: listed = 2
        :: listed = 4
        :: rest = !rest
        fi;
        WAKES_FOR_WANTED }
    :: atomic { SEAT == free && pending && ended_workers < WORKERS ->      /* Desk::settle_for */
        if
        :: pending & 1 -> WAITS_FOR_ONE = 1
        :: pending & 2 -> WAITS_FOR_ONE = 2
        :: pending & 4 -> WAITS_FOR_ONE = 4
        fi;
        tell_wait();
        SEAT = sleeps }
    :: atomic { SEAT == settles && WAITS_FOR_ONE ->
        told_seats = (told_seats -> told_seats - 1 : 0);
        if
        :: pending & WAITS_FOR_ONE && ended_workers < WORKERS -> SEAT = sleeps
        :: else -> WAITS_FOR_ONE = 0; SEAT = free
        fi }
#endif
    :: atomic { SEAT == free && !closed -> close(SEAT, free) }
    :: atomic { SEAT == closes ->
#if LOST_WAKEUP != 7
        job_due_notify_all();
#endif
        SEAT = free }
    :: atomic { SEAT == free -> SEAT = gone; break }
    od;
end: false
}

/* Who opened the desk closes it once all seats are gone. */
active proctype Owner() {
    atomic { owner == free && seat[0] == gone && seat[1] == gone -> close(owner, gone) };
    atomic {
        if
        :: owner == closes ->
#if LOST_WAKEUP != 7
            job_due_notify_all();
#endif
            owner = gone
        :: owner == gone
        fi };
end: false
}

/* A wait that ends by itself. */
#if CHANCES
active proctype Chance() {
end:
    do
    :: atomic { chances && SOME_WORKER(asleep) -> chances--; job_due_notify_one() }
    :: atomic { chances && seat[0] == sleeps -> chances--; seat[0] = settles }
    :: atomic { chances && seat[1] == sleeps -> chances--; seat[1] = settles }
    od
}
#endif

/* Nobody sleeps whom nobody will wake. While a worker sleeps and a picture is due, somebody is to look or to wake one; */
#define IS_LOOKED_FOR (SOME_WORKER(looks) || SOME_WORKER(woken) || SOME_WORKER(tells_on) || SOME_WORKER(counts) \
    || SOME_WORKER(tells_both) || SOME_WORKER(tells_job_due) || SOME_SEAT(tells_both) || SOME_SEAT(tells_job_due))
#define WORKERS_ARE_WOKEN (!SOME_WORKER(asleep) || !GIVEN || closed || IS_LOOKED_FOR)
/* while one sleeps and the desk is closed, somebody is to wake it; */
#define CLOSING_IS_TOLD (!SOME_WORKER(asleep) || !closed || SOME_SEAT(closes) || owner == closes || IS_CLOSED_OTHERWISE)
#ifdef COUNTED
#define IS_CLOSED_OTHERWISE (WORKERS_IN(asleep) <= WORKERS_IN(tells_on) + WORKERS_IN(tells_both) \
    + WORKERS_IN(tells_job_due) + SEATS_IN(tells_both) + SEATS_IN(tells_job_due))
#else
#define IS_CLOSED_OTHERWISE false
#endif
/* and while a seat sleeps that needn't wait any more, somebody is to wake it. */
#define IS_TOLD (SOME_WORKER(looks) || SOME_WORKER(counts) || SOME_WORKER(tells_both) || SOME_WORKER(tells_settled) \
    || SOME_SEAT(tells_both) || SOME_SEAT(tells_settled))
#ifdef WANTED
/* A worker that is to look tells seats that wait for a single picture only where it brings one. */
#define IS_TOLD_OF_ONE (SOME_WORKER(counts) || SOME_WORKER(tells_both) || SOME_WORKER(tells_settled) \
    || SOME_SEAT(tells_both) || SOME_SEAT(tells_settled))
#define IS_WOKEN(at) (seat[at] != sleeps || (waited[at] -> (pending & waited[at] && ended_workers < WORKERS) || IS_TOLD_OF_ONE \
    : (pending && !RESTED && ended_workers < WORKERS) || IS_TOLD))
#define SEATS_ARE_WOKEN (IS_WOKEN(0) && IS_WOKEN(1))
#else
#define SEATS_ARE_WOKEN (!SOME_SEAT(sleeps) || (pending && ended_workers < WORKERS) || IS_TOLD)
#endif
/* Each job that is out is a worker's. */
#define JOBS_ARE_OUT (COUNT(out) + stale == has[0] + has[1] + has[2] && !(out & ~pending))

#ifdef CLAIM
/* A seat's settle ends, once no other seat edits any more, and workers end once the desk is closed: where each process that
 * can go on does at some time. */
#define WAITS (seat[0] == sleeps || seat[0] == settles)
#define ALL_ENDED (worker[0] == ended && worker[1] == ended && worker[2] == ended)
#define EDITS (seat[1] == tells_both || seat[1] == tells_job_due || seat[1] == tells_settled || seat[1] == edited)
ltl settle_and_close_end { ([]<> (!WAITS || EDITS)) && ([]<> (!closed || ALL_ENDED)) }
#else
active proctype Watch() {
end:
    do
    :: atomic { !WORKERS_ARE_WOKEN -> assert(WORKERS_ARE_WOKEN) }
    :: atomic { !CLOSING_IS_TOLD -> assert(CLOSING_IS_TOLD) }
    :: atomic { !SEATS_ARE_WOKEN -> assert(SEATS_ARE_WOKEN) }
    :: atomic { !JOBS_ARE_OUT -> assert(JOBS_ARE_OUT) }
    od
}
#endif
