/*
 * litmus: judges candidate executions under the POWER memory models PPCw and PPCs.
 *
 * A record is one candidate execution in bytes; docs/FORMAT.md describes it. Each call on a record
 * looks at the one that starts at the first byte it is handed and reads no further than that record
 * ends, so records may lie back to back. There are two editions of records, and every call takes
 * both: edition 2 has lwsyncs and dependencies. A barrier is a sync or an lwsync.
 *
 * Any bytes, any sizes, models, permutations and places are fine: there is an answer for each.
 * A size or room of 0 is fine, but the pointer that goes with it must not be NULL. No call keeps a
 * pointer, allocates memory or has any other state; calls may run at the same time. Two calls that
 * do must not share `out`, a tally or an area that one of them stores to, nor may one call's `out`
 * or such an area be the other's record.
 *
 * A case is one candidate execution in a struct, litmus_case. The calls litmus_case_.. are for
 * programs that build cases or look into them.
 *
 * A trace is a run of the storage subsystem of those processors, step by step; litmus_trace says
 * whether each step may happen where it stands.
 */
#ifndef LITMUS_H
#define LITMUS_H

#include <stdbool.h>
#include <stddef.h>
#include <stdint.h>

#ifdef __cplusplus
extern "C" {
#endif

/* The most bytes of a record of each edition, and of any record. */
enum {
    LITMUS_EDITION_1_BYTES = 33409,
    LITMUS_EDITION_2_BYTES = 33697,
    LITMUS_RECORD_BYTES = LITMUS_EDITION_2_BYTES
};

/*
 * The most threads, addresses, events and dependencies of a case, and the most bytes of its name.
 */
enum {
    LITMUS_THREADS = 4,
    LITMUS_ADDRESSES = 4,
    LITMUS_EVENTS = 64,
    LITMUS_DEPENDENCIES = 96,
    LITMUS_NAME_BYTES = 32
};

/* The most bytes of a condition's text, and how deep `~` and brackets may be nested in it. */
enum {
    LITMUS_CONDITION_BYTES = 512,
    LITMUS_CONDITION_DEPTH = 16
};

/*
 * The most steps of a trace, the most writes and barriers that it accepts, the most entries of a
 * thread's list, and the most bytes of a trace.
 */
enum {
    LITMUS_STEPS = 128,
    LITMUS_WRITES = 16,
    LITMUS_BARRIERS = 8,
    LITMUS_LISTED = LITMUS_WRITES + LITMUS_BARRIERS,
    LITMUS_TRACE_BYTES = 1048
};

/* The kinds of events. Edition 1 has no lwsync. */
enum { LITMUS_LOAD = 0, LITMUS_STORE = 1, LITMUS_SYNC = 2, LITMUS_LWSYNC = 3 };

/* The classes of dependencies. */
enum { LITMUS_BY_ADDRESS = 0, LITMUS_BY_DATA = 1, LITMUS_BY_CONTROL = 2 };

/* The models. */
enum {
    LITMUS_PPCW = 0, /* rules 15 and 16 for each thread's own loads */
    LITMUS_PPCS = 1  /* rules 15 and 16 for every load of the thread or in its order */
};

/*
 * number   what was found:
 *             0  accepted, or done
 *             1  the bytes end inside a number or the name
 *             2  a number has too many groups, or is not in its shortest form
 *             3  a number is outside its range; of a condition's text also: an event is no load,
 *                or the text is too long
 *             4  a dependency is not one that the events allow or not above the one before it, a
 *                write order entry is not a store to that address or was listed before, or a pair
 *                is not above the pair before it
 *             5  not a permutation number, or it does not map the case's labels onto themselves
 *             6  the buffer has too few bytes from the given place, or the place is past its end;
 *                of a log: a count of the tally is full; of an area: it has too few bytes behind
 *                the last finished frame
 *             7  no such model
 *             8  a byte of the area behind the last finished frame is not FF
 *             9  a frame's flag is neither 00 nor FF
 *            11  a thread's order is not irreflexive and transitive
 *            12  a thread's order leaves two of its own events unordered
 *            13  a thread's order breaks its program order at a barrier, on one address or
 *                against a dependency
 *            14  a thread's order of two stores to one address is not the write order's
 *            15  a load does not hold the initial value, and no store to its address comes
 *                before it
 *            16  a load holds another value than some store to its address, does not come
 *                before it, and no other store lies between
 *            17  two events that a barrier orders, one before it and one after it on its thread,
 *                are not in that order for every thread
 *            18  two events that a barrier orders, one before it and one after a load of a store
 *                behind it, are not in that order for every thread
 *            21  a condition's text is outside the grammar
 *            22  a condition's text is nested too deep
 *            23  a byte of the name is not printable (32 to 126)
 *            31  of a trace: a step is not enabled where it stands
 *          A sync orders any two events; an lwsync orders loads and stores, but not a store
 *          before a load.
 *          Where several rules are broken, the lowest is given.
 * place    under 1 to 4, the byte where the faulty number starts (under 4, of a pair: its first
 *          number, of a dependency: its class; of a name that is cut short: its first byte);
 *          under 23, the first byte of the name that is not printable; under 9, the flag;
 *          otherwise, and in every answer about a litmus_case, 0. Of an area's log it counts from
 *          the area's start
 * length   under 0 and 11 to 18, how many bytes the record takes; of litmus_area_append and
 *          litmus_area_repair under 0, how many stores were made; otherwise 0
 * finals   of litmus_judge and litmus_case_judge under 0, what each address holds at the end, and 0
 *          for addresses that the case does not have; otherwise all 0
 */
typedef struct {
    uint32_t number;
    uint64_t place;
    uint64_t length;
    uint32_t finals[LITMUS_ADDRESSES];
} litmus_answer;

/* A part of the bytes that were handed in: where it starts, and how many bytes it has. */
typedef struct {
    uint64_t at;
    uint64_t length;
} litmus_part;

/* Whether the bytes start with a record: 0 with its length, or 1 to 4 or 23 with the place. */
litmus_answer litmus_read(const uint8_t *record, size_t size);

/*
 * Judges the record under a model: 0 with length and finals, 11 to 18 with length, 7 before
 * anything else is looked at, or 1 to 4 or 23 as litmus_read, before any rule.
 */
litmus_answer litmus_judge(const uint8_t *record, size_t size, uint64_t model);

/*
 * Writes the record, its threads and addresses renumbered, into out from the byte `at` onward: 0
 * with the length, which is also the old record's. LITMUS_RECORD_BYTES are room for any record.
 * Permutations of the labels 0 to 3 are numbered 0 (0123) to 23 (3210) in dictionary order; "1230"
 * sends 0 to 1.
 *
 * Checked in this order: the record (1 to 4), its name (23), threads (5), addresses (5), room (6).
 * Only the record's bytes are written; under a refusal none is. out and record must be different
 * buffers that do not overlap.
 */
litmus_answer litmus_renumber(const uint8_t *record, size_t size, uint64_t threads,
                              uint64_t addresses, uint8_t *out, size_t room, uint64_t at);

/*
 * The class of a record is the record and all its renumberings, by every two permutations that fit.
 * All records of a class have one length. The class's representative is the least of them, compared
 * byte by byte: the first byte that differs decides. So two readable records have one
 * representative exactly when one is a renumbering of the other, which is when they are the same
 * but for the labels of threads and addresses.
 */

/*
 * Writes the representative of the record's class into out from the byte `at` onward: 0 with the
 * length, which is also the record's. Of a representative it is that record itself.
 *
 * Checked in this order: the record (1 to 4), its name (23), room (6). Only the record's bytes are
 * written; under a refusal none is. out and record must be different buffers that do not overlap.
 */
litmus_answer litmus_representative(const uint8_t *record, size_t size, uint8_t *out, size_t room,
                                    uint64_t at);

/*
 * One of two records.
 *
 * which    1 for the first, 2 for the second, 0 for neither
 * length   how many bytes that record takes; 0 for neither
 */
typedef struct {
    uint32_t which;
    uint64_t length;
} litmus_choice;

/*
 * The lesser of two records, compared byte by byte, and the first where they are equal; neither
 * where litmus_read refuses one of them. Bytes behind a record have no say. first and second may
 * overlap, or be the same.
 */
litmus_choice litmus_lesser(const uint8_t *first, size_t first_size, const uint8_t *second,
                            size_t second_size);

/*
 * Where the record's name lies, whose bytes are 32 to 126; at 0 and of length 0 where litmus_read
 * refuses the bytes.
 */
litmus_part litmus_name(const uint8_t *record, size_t size);

/*
 * Where the name lies beside litmus_judge, and beside litmus_renumber into an out of that room: as
 * litmus_name gives it where the call is not refused, at 0 and of length 0 where it is.
 */
litmus_part litmus_judged_name(const uint8_t *record, size_t size, uint64_t model);
litmus_part litmus_renumbered_name(const uint8_t *record, size_t size, uint64_t threads,
                                   uint64_t addresses, size_t room, uint64_t at);

/*
 * A condition is a text about the outcome of an accepted case, such as
 *
 *     m0=1 /\ ~(e2=0 \/ m1=3)
 *
 * An equation m0=1 says that address 0 holds 1 at the end, and e2=0 that event 2, a load, holds 0.
 * A condition is terms joined by \/ (or), a term is factors joined by /\ (and), and a factor is ~
 * (not) and a factor, a condition in brackets, or an equation. Numbers are decimal without needless
 * zeros in front. Spaces, byte 32, may stand before, between and after tokens; m0 and e2 are one
 * token each, and so are the two signs.
 */

/*
 * number   0 where the case is accepted and the text is a condition on it; otherwise why not:
 *          of the record  1 to 4, 7, 11 to 18 or 23, as litmus_judge gives it, before the text is
 *                         looked at
 *          of the text    3   it has more than LITMUS_CONDITION_BYTES bytes, the case does not have
 *                             that address or has no such load, or a value is above 4294967295
 *                         21  it is outside the grammar
 *                         22  `~` and brackets are nested deeper than LITMUS_CONDITION_DEPTH
 *          A 3 is the text's exactly where litmus_judge gives 0 for the same record and model.
 * place    of the record, as litmus_judge gives it. Of the text, where its leftmost fault lies, from
 *          the text's start: a bad number's first digit, the `~` or `(` that is too deep, or else the
 *          first byte that can't stand there or the text's end; of a text that is too long, before
 *          any other fault, LITMUS_CONDITION_BYTES
 * length   as litmus_judge gives it, but 0 under the text's 3, 21 and 22
 * finals   likewise
 * holds    under 0, 1 where the condition holds and 0 where it does not; otherwise 0
 */
typedef struct {
    uint32_t number;
    uint64_t place;
    uint64_t length;
    uint32_t finals[LITMUS_ADDRESSES];
    uint32_t holds;
} litmus_condition_answer;

/*
 * Judges the record under a model, and says whether a condition holds for it where it is accepted.
 * The text may be any bytes; no byte ends it. record and text may overlap, or be the same.
 */
litmus_condition_answer litmus_condition(const uint8_t *record, size_t size, uint64_t model,
                                         const uint8_t *text, size_t text_size);

/*
 * A log is records back to back, of both editions. It is judged under PPCs as it comes, by
 * litmus_log_judge, and each record is added to a tally.
 */

/* How many rules there are, and the number of the first. */
enum { LITMUS_FIRST_RULE = 11, LITMUS_RULES = 8 };

/*
 * records    how many records were judged
 * accepted   how many of them were accepted
 * broken     by rule, from LITMUS_FIRST_RULE on: for how many it is the lowest that they break
 *
 * A log begins with all zeros, or with the tally of another one to go on counting.
 */
typedef struct {
    uint32_t records;
    uint32_t accepted;
    uint32_t broken[LITMUS_RULES];
} litmus_tally;

/*
 * number   where the log has ended, how:
 *             0  between two records, which is no fault; or it has no bytes
 *             1  its bytes end inside a record
 *             2, 3, 4, 23  its next record is refused, as by litmus_read
 *             6  a count of the tally is at 4294967295 and would grow: the tally is that of the
 *                records before
 *          otherwise 0
 * ended    whether the log has ended, whatever bytes may follow
 * place    under 1 to 4 and 23 as for litmus_read, but from the log's start; otherwise 0
 * length   how many of the bytes are those of records that were added to the tally
 */
typedef struct {
    uint32_t number;
    bool ended;
    uint64_t place;
    size_t length;
} litmus_log_answer;

/*
 * Judges every complete record of some bytes of a log, and adds them to the tally. The bytes begin
 * at the place `from` of the log, where a record begins; `last` says that no more will follow.
 *
 * Where the log has not ended, the bytes behind those of `length` have to come again, in front of
 * further ones, with `from` raised by `length`. They are no more than LITMUS_RECORD_BYTES, so that
 * a longer buffer always has room for more. So a log is judged in pieces:
 *
 *     size = 0, from = 0, and a tally of zeros
 *     repeat: read more bytes into the buffer behind the `size` that it has, and count them in
 *             answer = litmus_log_judge(buffer, size, from, no more will follow, &tally)
 *             move the bytes from answer.length on to the front of the buffer
 *             size -= answer.length, from += answer.length
 *     until answer.ended
 *
 * However it is cut, the tally and the ending are those of one call on the whole log with `last`.
 * Places are counted modulo 2 to the 64. The tally must not be NULL nor lie within the bytes.
 */
litmus_log_answer litmus_log_judge(const uint8_t *bytes, size_t size, uint64_t from, bool last,
                                   litmus_tally *tally);

/*
 * An area is lent bytes that keep records through a power failure. It begins as all FF and holds a
 * log of frames, back to back from its first byte on. A frame is a flag byte and a record: 00 marks
 * a finished frame. The log ends at a flag FF, or where the last frame fills the area to its last
 * byte. What lies behind the last finished frame is no part of the log.
 *
 * The log has a fault of its own where a flag is neither 00 nor FF (9), or where litmus_read
 * refuses the record of a finished frame (1 to 4 or 23). Its place counts from the area's start.
 *
 * A call that stores does so one byte at a time, and stops after as many stores as it is allowed.
 * It answers 0 with the stores made as `length`, cut or not. Whichever store is the last one, every
 * record of a finished frame is still found. This presupposes bytes that keep stores in the order
 * in which they are made, when the power fails too.
 */

/*
 * What stands at a place of an area: a finished frame, or none, and then how the log ends there.
 *
 * number   ended: 0, or the log's own fault: 9, 1 to 4 or 23; otherwise 0
 * ended    no finished frame stands there: the log ends
 * place    of that fault, from the area's start; otherwise 0
 * at       not ended: where the record begins; otherwise 0
 * length   not ended: how many bytes it has; otherwise 0. The next frame is at `at` + `length`
 */
typedef struct {
    uint32_t number;
    bool ended;
    uint64_t place;
    uint64_t at;
    uint64_t length;
} litmus_frame;

/*
 * The frame at a place: 0 for the first, then the last one's `at` + `length`. Past the area's end
 * the log has ended, with 0. So the records are found:
 *
 *     frame = litmus_area_next(area, size, 0)
 *     while not frame.ended: the record is at area + frame.at and has frame.length bytes
 *             frame = litmus_area_next(area, size, frame.at + frame.length)
 *     frame.number is 0, or the log's own fault at frame.place
 */
litmus_frame litmus_area_next(const uint8_t *area, size_t size, uint64_t at);

/*
 * Appends the record, without the bytes behind it: stores its bytes front to back, and the flag
 * last. It is found afterwards exactly if the flag was stored, which is if `length` is one more than
 * the record has bytes; cut before that, the log is as it was.
 *
 * Checked in this order: the log (9, 1 to 4, 23), the record (1 to 4, 23), room for the frame (6),
 * and whether every byte behind the last finished frame is FF (8), where litmus_area_repair helps.
 * Under a refusal nothing is stored. area and record must not overlap.
 *
 * A refusal with 1 to 4 or 23 is the log's own if litmus_area_next, called as above up to the log's
 * end, gives a number there. Otherwise it is the record's, and its place counts from the record's
 * start.
 */
litmus_answer litmus_area_append(uint8_t *area, size_t size, const uint8_t *record,
                                 size_t record_size, uint64_t allowed);

/*
 * Fills what lies behind the last finished frame with FF, front to back, by a store for each byte
 * that is not FF. Then that room can be appended to again; cut, it takes another repair. Refused
 * with the log's own fault (9, 1 to 4, 23), it stores nothing.
 */
litmus_answer litmus_area_repair(uint8_t *area, size_t size, uint64_t allowed);

/*
 * A trace is a run of the storage subsystem: which writes and barriers it accepts, when each is
 * propagated to which thread, which writes it commits to be before which, what it answers reads and
 * when it acknowledges syncs. docs/FORMAT.md describes its bytes. A call on a trace looks at the
 * one that starts at the first byte it is handed and reads no further than that trace ends.
 *
 * Writes and barriers are numbered separately from 0, in the order in which they are accepted. Each
 * thread has a list of the events, writes and barriers, that have been propagated to it; its own
 * are there once they are accepted. Coherence is the order of the writes to each address, as far as
 * it is committed: transitive and without a cycle.
 */

/* The kinds of steps, with their fields in the order of the bytes. */
enum {
    LITMUS_ACCEPT_WRITE = 1,      /* thread, address, value */
    LITMUS_ACCEPT_BARRIER = 2,    /* thread; 0 sync, 1 lwsync */
    LITMUS_PROPAGATE_WRITE = 3,   /* write, thread */
    LITMUS_PROPAGATE_BARRIER = 4, /* barrier, thread */
    LITMUS_COMMIT = 5,            /* the write that comes first in coherence, the other */
    LITMUS_RESPOND = 6,           /* thread, address, value that is read */
    LITMUS_ACKNOWLEDGE = 7        /* barrier */
};

/* A state of the storage subsystem. What stands in an array beyond its count is 0. */
typedef struct {
    size_t threads;                       /* how many */
    size_t addresses;                     /* how many */
    uint32_t initial[LITMUS_ADDRESSES];   /* by address: what it holds at first */
    size_t writes;                        /* how many were accepted; by write: */
    uint8_t writer[LITMUS_WRITES];        /* its thread */
    uint8_t address[LITMUS_WRITES];       /* where it stores */
    uint32_t value[LITMUS_WRITES];        /* what it stores */
    /* Bit a of before[b] says that write a is before write b in coherence order. */
    uint64_t before[LITMUS_WRITES];
    size_t barriers;                      /* how many were accepted; by barrier: */
    uint8_t owner[LITMUS_BARRIERS];       /* its thread */
    uint8_t barrier_class[LITMUS_BARRIERS];  /* 0 sync, 1 lwsync */
    uint8_t unacknowledged[LITMUS_BARRIERS]; /* 1: a sync that has not been acknowledged */
    size_t listed[LITMUS_THREADS];        /* by thread: how many events its list has */
    /*
     * Thread t's list, in the order propagated, from events[t * LITMUS_LISTED] on: a write by its
     * number, a barrier by its number + LITMUS_WRITES.
     */
    uint8_t events[LITMUS_THREADS * LITMUS_LISTED];
} litmus_storage;

/*
 * number     what was found:
 *               0  every step is enabled where it stands
 *               1 to 3  the trace can't be read, as for records: the bytes end inside a number; a
 *                  number has too many groups or is not in its shortest form; a number is outside
 *                  its range, names no write or barrier of an earlier step, or is the kind of a
 *                  step that accepts a write or barrier too many
 *              31  a step is not enabled where it stands
 * condition  under 31, which of the conditions on the step fails, the first where several do:
 *               LITMUS_PROPAGATE_WRITE     1  the write has not been propagated to the thread yet
 *                                          2  it is after every write to its address that has
 *                                             been propagated there, in coherence order
 *                                          3  every barrier before it in its own thread's list has
 *                                             been propagated there
 *               LITMUS_PROPAGATE_BARRIER   1  the barrier has not been propagated to the thread yet
 *                                          2  every write before it in its own thread's list has
 *                                             been propagated there, or a write after it in
 *                                             coherence order has
 *               LITMUS_COMMIT              1  both writes are to one address
 *                                          2  coherence does not relate them yet
 *                                          3  there is no cycle in the coherence that results and
 *                                             all pairs of writes with a barrier between them in
 *                                             the list of the second one's thread; a write before
 *                                             itself is one
 *               LITMUS_RESPOND             1  the value is that of the last write to the address
 *                                             in the thread's list, or else the initial value
 *               LITMUS_ACKNOWLEDGE         1  the barrier is a sync that has not been acknowledged
 *                                          2  it has been propagated to every thread
 *            LITMUS_ACCEPT_WRITE and LITMUS_ACCEPT_BARRIER have none. Otherwise 0
 * place      under 1 to 3, the byte where the faulty number starts; otherwise 0
 * step       under 31, the first step that is not enabled, counted from 0; otherwise 0
 * length     under 0, how many bytes the trace takes; otherwise 0
 * end        under 0, the state after the last step; otherwise all 0
 */
typedef struct {
    uint32_t number;
    uint32_t condition;
    uint64_t place;
    uint64_t step;
    uint64_t length;
    litmus_storage end;
} litmus_trace_answer;

/*
 * Runs the trace from the state in which each address holds its initial value and nothing was
 * accepted: 0 with length and end, 31 with step and condition, or 1 to 3 with the place, before any
 * step is judged. A step that is not enabled ends the run.
 */
litmus_trace_answer litmus_trace(const uint8_t *trace, size_t size);

/* A trace that was read. What stands in an array beyond its count is 0. */
typedef struct {
    size_t threads;                       /* how many: 1 to LITMUS_THREADS */
    size_t addresses;                     /* 1 to LITMUS_ADDRESSES */
    uint32_t initial[LITMUS_ADDRESSES];   /* by address: what it holds at first */
    size_t steps;                         /* 0 to LITMUS_STEPS; by step: */
    uint8_t kind[LITMUS_STEPS];           /* LITMUS_ACCEPT_WRITE .. LITMUS_ACKNOWLEDGE */
    uint8_t first[LITMUS_STEPS];          /* its first field */
    uint8_t second[LITMUS_STEPS];         /* its second field, 0 if it has none */
    uint32_t value[LITMUS_STEPS];         /* its third, the value, 0 if it has none */
} litmus_steps;

/*
 * number   0, or 1 to 3 as for litmus_trace
 * place    under 1 to 3, the byte where the faulty number starts; otherwise 0
 * length   under 0, how many bytes the trace takes; otherwise 0
 * steps    under 0, what stands in the trace; otherwise all 0
 */
typedef struct {
    uint32_t number;
    uint64_t place;
    uint64_t length;
    litmus_steps steps;
} litmus_trace_reading;

/* Reads the trace and judges no step. */
litmus_trace_reading litmus_trace_read(const uint8_t *trace, size_t size);

/*
 * A case. Threads, addresses, events and dependencies are numbered from 0. A thread's program order
 * is the order in which its events are listed.
 *
 * What stands in an array beyond its count is ignored. So are in edition 1 the dependencies and
 * their count, the address and value of a sync or lwsync, and the bits of a row from `events` on.
 * Two cases that differ only there are the same case. In a case that a call gives, all of it is 0.
 */
typedef struct {
    size_t edition;                        /* 1 or 2 */
    size_t threads;                        /* how many: 1 to LITMUS_THREADS */
    size_t addresses;                      /* 1 to LITMUS_ADDRESSES */
    size_t events;                         /* 0 to LITMUS_EVENTS */
    uint32_t initial[LITMUS_ADDRESSES];    /* by address: what it holds at first */
    uint8_t kind[LITMUS_EVENTS];           /* by event: LITMUS_LOAD .. LITMUS_LWSYNC */
    uint8_t thread[LITMUS_EVENTS];         /* by event: below `threads` */
    uint8_t address[LITMUS_EVENTS];        /* by load or store: below `addresses` */
    uint32_t value[LITMUS_EVENTS];         /* by load or store: what it loaded or stored */
    size_t dependencies;                   /* in edition 2, 0 to LITMUS_DEPENDENCIES */
    /*
     * By dependency: its class, the load that is depended on, and the event that depends on it.
     * `from` is listed before `to` and of the same thread; `to` is a load or a store, and where the
     * class is data or control, a store. Dependencies rise strictly: by from, then by to, then by
     * class.
     */
    uint8_t dependency_class[LITMUS_DEPENDENCIES];
    uint8_t dependency_from[LITMUS_DEPENDENCIES];
    uint8_t dependency_to[LITMUS_DEPENDENCIES];
    /* The stores to address x in write order, from writes[x * LITMUS_EVENTS] on, each once. */
    uint8_t writes[LITMUS_ADDRESSES * LITMUS_EVENTS];
    /*
     * Bit b of rows[p * LITMUS_EVENTS + a] says that event a comes before event b in thread p's
     * order. Nothing is added by transitivity.
     */
    uint64_t rows[LITMUS_THREADS * LITMUS_EVENTS];
    uint8_t name[LITMUS_NAME_BYTES];       /* 32 to 126 each; no byte ends the name */
    size_t name_length;                    /* 0 to LITMUS_NAME_BYTES */
} litmus_case;

/* An answer and its case, all of which is 0 where the answer is a refusal. */
typedef struct {
    litmus_answer answer;
    litmus_case result;
} litmus_case_answer;

/* As litmus_read, with the case. */
litmus_case_answer litmus_case_read(const uint8_t *record, size_t size);

/*
 * A call that is handed a case may get any numbers in it. It looks at edition, threads, addresses,
 * events, each event, dependencies, each dependency, the write orders and name_length, in this
 * order, and the first that may not stand there is the answer: 3 for a number outside its range, 4
 * for a dependency or an entry of a write order. Then comes 23 for a byte of the name. The place is
 * 0, since there are no bytes. An order is a set of pairs, in which nothing can be wrong.
 */

/*
 * Writes the case's record into out from the byte `at` onward: 0 with its length, which
 * LITMUS_RECORD_BYTES are room for. Checked in this order: the case (3, 4, 23), room (6). Only the
 * record's bytes are written; under a refusal none is.
 */
litmus_answer litmus_case_write(litmus_case c, uint8_t *out, size_t room, uint64_t at);

/*
 * Judges the case under a model: 0 with finals and the length of its record, or 11 to 18 with that
 * length. Checked in this order: the model (7), the case (3, 4, 23), the rules.
 */
litmus_answer litmus_case_judge(litmus_case c, uint64_t model);

/*
 * Judges the case under a model, and says whether a condition holds for it, as litmus_condition of
 * the case's record. Checked in this order: the model (7), the case (3, 4, 23, with place 0), the
 * rules, the text. A 3 is the text's exactly where litmus_case_judge gives 0.
 */
litmus_condition_answer litmus_case_condition(litmus_case c, uint64_t model, const uint8_t *text,
                                              size_t text_size);

/*
 * The case, its threads and addresses renumbered, by permutation numbers as for litmus_renumber: 0
 * with the length of its record. Checked in this order: the case (3, 4, 23), threads (5), addresses
 * (5).
 */
litmus_case_answer litmus_case_renumber(litmus_case c, uint64_t threads, uint64_t addresses);

/*
 * The case of the representative, as for litmus_representative of the case's record: 0 with the
 * length of its record, or the case's 3, 4 or 23.
 */
litmus_case_answer litmus_case_representative(litmus_case c);

/*
 * The number of the permutation that is first one and then the other. A number above 23 counts as
 * 0, which moves nothing.
 */
uint64_t litmus_composite(uint64_t first, uint64_t then);

/* The number of the permutation that takes q back; 0 for a number above 23. */
uint64_t litmus_inverse(uint64_t q);

/* Whether q is a permutation number that maps the labels below `labels` onto themselves. */
bool litmus_fits(uint64_t q, size_t labels);

/*
 * Rule 11 of orders alone, without a record: 0 where the order of each of the threads is
 * irreflexive and transitive, 11 where one is not, and 3 for more threads or events than a case may
 * have. Bit b of rows[p * LITMUS_EVENTS + a] says that event a comes before event b in thread p's
 * order; what lies beyond the two counts may be anything, but rows has all its entries.
 *
 * This is the test that litmus_judge uses: it takes all that comes after one event at once.
 */
uint32_t litmus_rule11(const uint64_t rows[LITMUS_THREADS * LITMUS_EVENTS], size_t threads,
                       size_t events);

/* The same by every three events, one after the other: slower, and proved to answer the same. */
uint32_t litmus_rule11_by_threes(const uint64_t rows[LITMUS_THREADS * LITMUS_EVENTS],
                                 size_t threads, size_t events);

/* Whether both tests answer the same: it runs both, and is proved to be true for all rows. */
bool litmus_rule11_tests_agree(const uint64_t rows[LITMUS_THREADS * LITMUS_EVENTS],
                               size_t threads, size_t events);

#ifdef __cplusplus
}
#endif

#endif
