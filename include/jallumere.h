/*
 * The core's C interface: one replica of one group, stepped message by message. docs/HOSTS.md is the page for
 * engineers; this is the reference.
 *
 * Sizes, the same for every function: n replicas in a group (3, 5 or 7), s groups (1 to 8), capacity c
 * (16 to 4,096). All numbers are uint64_t; a slice is a pointer and a length in bytes, and a slice of
 * length 0 may have a null pointer.
 *
 * The caller owns every byte. No function keeps a pointer, allocates, frees or has memory of its own, so any
 * thread may call any function at any time; the slices of one call must not overlap, and a state belongs to one
 * call at a time. All bytes are little-endian, as docs/STATE.md and docs/HOSTS.md lay them out.
 */
#ifndef JALLUMERE_H
#define JALLUMERE_H

#include <stddef.h>
#include <stdint.h>

/* The version of this interface: major * 10000 + minor * 100 + patch. */
#define JALLUMERE_VERSION 20100

/* What stands in the place of a group's or a replica's number for whatever is outside every group. */
#define JALLUMERE_OUTSIDE 255

/* What the readers of a state give where there is nothing to read. */
#define JALLUMERE_NOTHING UINT64_MAX

/* Where a digest begins afresh: FNV-1a's offset basis, which is the digest of no bytes. */
#define JALLUMERE_DIGEST_START UINT64_C(0xcbf29ce484222325)

/* The parts of what jallumere_step, jallumere_read and jallumere_write give, which is a number + 256 * a length or an
 * offset: one of the answers below; the length in bytes of what was written, 0 after a refusal; and the offset in the
 * message of its first wrong field, 0 but after JALLUMERE_MALFORMED. Neither of the two is ever taken for the other. */
#define JALLUMERE_NUMBER(answer) ((unsigned)((answer) % 256))
#define JALLUMERE_LENGTH(answer) jallumere_part(answer, JALLUMERE_DONE)
#define JALLUMERE_OFFSET(answer) jallumere_part(answer, JALLUMERE_MALFORMED)

/* Kinds of messages: a message's first byte. */
enum jallumere_kind {
    JALLUMERE_TRANSACTION = 1,
    JALLUMERE_TIMESTAMP_NOTE = 3,
    JALLUMERE_REPLICA_SYNC = 4,
    JALLUMERE_FAST_REPLY = 5,
    JALLUMERE_SLOW_REPLY = 6,
    JALLUMERE_CHANGE_VIEW = 7,
    JALLUMERE_VOTE = 8,
    JALLUMERE_START_VIEW = 9,
    JALLUMERE_SYNC_STATUS = 10,
    JALLUMERE_COMMIT = 11,
    JALLUMERE_VERIFY_REQUEST = 18,
    JALLUMERE_VERIFY_REPLY = 19,
    JALLUMERE_TICK = 23
};

/* Answers. All but JALLUMERE_DONE are refusals; the lowest number that applies is given. */
enum jallumere_answer {
    JALLUMERE_DONE = 0,
    JALLUMERE_WRONG_STATE = 1,        /* a size, own number or length is wrong, or the state is not good */
    JALLUMERE_MALFORMED = 2,          /* the bytes are no message, or a step was given a kind 5 or 6; with an offset */
    JALLUMERE_NOT_ADDRESSED_HERE = 3, /* another group, or a mask without this replica */
    JALLUMERE_WRONG_VIEW = 4,         /* of another view, or of one that is not greater where it must be */
    JALLUMERE_WRONG_STATUS = 5,       /* the status does not take this kind */
    JALLUMERE_WRONG_ROLE = 6,         /* of the receiver or of the sender */
    JALLUMERE_NOTHING_TO_DO = 7,      /* known already, or not above what is held */
    JALLUMERE_FULL = 8,               /* a table or the log would pass c, or a leader's timestamp 2^63-1 */
    JALLUMERE_NO_ROOM = 9             /* `out` is too short */
};

/* What goes with a number in an answer; 0 in an answer with another. */
static inline size_t jallumere_part(uint64_t answer, unsigned number) {
    return answer % 256 == number ? (size_t)(answer / 256) : 0;
}

/* What JALLUMERE_FIELD_STATUS says. */
enum jallumere_status {
    JALLUMERE_STATUS_NORMAL = 1,
    JALLUMERE_STATUS_VIEW_CHANGE = 2,
    JALLUMERE_STATUS_CROSS_SHARD = 3
};

/* Fields of a state, for jallumere_field. */
enum jallumere_field_number {
    JALLUMERE_FIELD_GROUP = 1,            /* the own group */
    JALLUMERE_FIELD_REPLICA = 2,          /* the own replica */
    JALLUMERE_FIELD_STATUS = 3,           /* one of the statuses */
    JALLUMERE_FIELD_VIEW = 4,             /* gView */
    JALLUMERE_FIELD_LAST_NORMAL_VIEW = 5, /* the last gView in which the status was normal */
    JALLUMERE_FIELD_CLOCK = 6,            /* the time of the last tick taken */
    JALLUMERE_FIELD_SYNC_POINT = 7,       /* up to here the log is the leader's */
    JALLUMERE_FIELD_COMMIT_POINT = 8,     /* up to here the log is committed */
    JALLUMERE_FIELD_LOG_LENGTH = 9,       /* entries in the log */
    JALLUMERE_FIELD_LEADER = 10           /* the replica that leads the own group */
};

/* Fields of an entry of the log, for jallumere_entry. */
enum jallumere_entry_field {
    JALLUMERE_ENTRY_TIMESTAMP = 1,
    JALLUMERE_ENTRY_COMMAND = 2,
    JALLUMERE_ENTRY_REQUEST = 3,
    JALLUMERE_ENTRY_COORDINATOR = 4,
    JALLUMERE_ENTRY_MASK = 5 /* the groups that the transaction touches, bit by bit */
};

#ifdef __cplusplus
extern "C" {
#endif

/*
 * The version of the interface that the linked core has: JALLUMERE_VERSION of the header that it belongs to.
 */
uint64_t jallumere_version(void);

/*
 * 0 where the linked core is the proved one; 1 where it is the C model of hosts/model, which is written to
 * compare with and not proved.
 */
uint64_t jallumere_is_model(void);

/*
 * The length in bytes of a state of these sizes, or 0 where one of them is wrong. Reads and writes nothing.
 */
uint64_t jallumere_state_length(uint64_t n, uint64_t s, uint64_t c);

/*
 * Writes the fresh state of replica `replica` of group `group` over all of `state`, whatever stood there:
 * status normal, all views, clock and points 0, all tables empty. Gives JALLUMERE_DONE, or
 * JALLUMERE_WRONG_STATE where a size, an own number or the state's length is wrong, after which every byte of
 * `state` is as it was. It is for a site's first start ever: a site that has lost its state must not be started
 * afresh, since it would forget what it promised.
 */
uint64_t jallumere_start(uint64_t n, uint64_t s, uint64_t c, uint64_t group, uint64_t replica,
                         uint8_t *state, size_t state_length);

/*
 * One step: takes the message and makes `state` the next state; what is to be sent stands first in `out`,
 * message after message (jallumere_message_length cuts them apart), and the rest of `out` stays. Gives
 * JALLUMERE_DONE + 256 * the length of the outgoing bytes; or JALLUMERE_MALFORMED + 256 * the offset that
 * jallumere_read gives, of a message of kind 5 or 6 always 0; or another refusal alone. JALLUMERE_NUMBER,
 * JALLUMERE_LENGTH and JALLUMERE_OFFSET take it apart. A refusal leaves every byte of `state` and `out`. After
 * JALLUMERE_DONE the state is to be on the disk before anything of `out` is sent. An `out` of
 * c * (96 + 4 * s) + 24 + 4 * s bytes is never too short.
 */
uint64_t jallumere_step(uint64_t n, uint64_t s, uint64_t c, uint8_t *state, size_t state_length,
                        const uint8_t *message, size_t message_length, uint8_t *out, size_t out_length);

/*
 * Whether these bytes are a good state: JALLUMERE_DONE where they are, JALLUMERE_WRONG_STATE where not (or a
 * size or the length is wrong): exactly where a step would refuse with it. Writes nothing. A good state need not
 * be the one that was stored: keep a digest beside it. Its logs and its early entries rise strictly by timestamp,
 * coordinator, request, and its early entries are later than the log's last.
 */
uint64_t jallumere_good(uint64_t n, uint64_t s, uint64_t c, const uint8_t *state, size_t state_length);

/*
 * Puts the early entries of a state into the order of timestamp, coordinator, request, and keeps every one of them; no
 * other byte changes. It is for a state that a core before interface 2.1 has left, whose early entries stand as they
 * came: once, before the first step. Gives JALLUMERE_DONE; or, with `state` as it was, JALLUMERE_WRONG_STATE where a
 * size or the length is wrong, or the state is not good for another reason than that order. A good state stays as it
 * is, byte for byte.
 */
uint64_t jallumere_order(uint64_t n, uint64_t s, uint64_t c, uint8_t *state, size_t state_length);

/*
 * What a field of a state says, by its number in enum jallumere_field_number; JALLUMERE_NOTHING where a size, the
 * state's length or the field's number is wrong. It looks at sizes and length alone, so it costs nothing to
 * speak of: of bytes that are not a good state it gives what stands there. The log's length is the smaller of
 * its count and c; the leader is the own group's view modulo n. Writes nothing.
 */
uint64_t jallumere_field(uint64_t n, uint64_t s, uint64_t c, uint64_t field, const uint8_t *state,
                         size_t state_length);

/*
 * The view of group `group` in the state's gVec, whose leader is the replica of that number modulo n;
 * JALLUMERE_NOTHING where a size or the state's length is wrong or the group is not below s. Writes nothing.
 */
uint64_t jallumere_group_view(uint64_t n, uint64_t s, uint64_t c, uint64_t group, const uint8_t *state,
                              size_t state_length);

/*
 * What a field of the log's entry at `position` (1 to the log's length) says, by its number in
 * enum jallumere_entry_field; JALLUMERE_NOTHING where a size, the state's length, the position or the field's
 * number is wrong. A command may be any 64 bits, JALLUMERE_NOTHING too: whether there is an entry is what the
 * log's length says. Writes nothing.
 */
uint64_t jallumere_entry(uint64_t n, uint64_t s, uint64_t c, uint64_t position, uint64_t field,
                         const uint8_t *state, size_t state_length);

/*
 * Whether these bytes are a well-formed message of any kind, 5 and 6 too: JALLUMERE_DONE well formed,
 * JALLUMERE_WRONG_STATE wrong n or s, else JALLUMERE_MALFORMED + 256 * the offset of the first wrong field in wire
 * order: of a message that is cut its length, of bytes after the end the offset of the first of them, of two fields
 * that disagree that of the later, of a log that is not good that of the first entry with which it stops being good,
 * as one that is not later than the entry before it, by timestamp, coordinator, request. There is no limit to a log's
 * length here. Writes nothing.
 */
uint64_t jallumere_read(uint64_t n, uint64_t s, const uint8_t *message, size_t message_length);

/*
 * The length in bytes of the message that `bytes` begins with, by its kind, s and its count of entries; 0 where
 * n or s is wrong, the kind is none, or the bytes end before the message does. The messages that a step leaves in
 * `out` are cut apart by it. Whether the message is well formed is jallumere_read's to say. Writes nothing.
 */
uint64_t jallumere_message_length(uint64_t n, uint64_t s, const uint8_t *bytes, size_t length);

/*
 * Writes the message with these fields first in `out` and leaves the rest of it. Gives JALLUMERE_DONE + 256 *
 * the message's length; or, with `out` as it was, JALLUMERE_WRONG_STATE for a wrong n or s, JALLUMERE_MALFORMED where
 * the message would be malformed (a field that does not fit into its bytes is out of range) and JALLUMERE_NO_ROOM
 * where `out` is too short; the lowest that applies. `numbers` are the kind's numbers in their order, `numbers_count`
 * of them; another count than the kind's is malformed. `views` is the gVec, 4 bytes a group, `entries` the entries, 24
 * bytes each (timestamp 8, command 8, request 4, coordinator 2, mask 2), both as they stand in a message and without
 * their counts; a length that is no multiple of 4 or 24 is malformed. With JALLUMERE_MALFORMED comes 256 * the offset
 * at which the first wrong field would stand in the message; of a wrong number of numbers, and of a block that is no
 * multiple, that of the section's count.
 */
uint64_t jallumere_write(uint64_t n, uint64_t s, uint64_t kind, uint64_t to_group, uint64_t to_mask,
                         uint64_t from_group, uint64_t from_replica, uint64_t view, const uint64_t *numbers,
                         size_t numbers_count, const uint8_t *views, size_t views_length,
                         const uint8_t *entries, size_t entries_length, uint8_t *out, size_t out_length);

/*
 * FNV-1a of 64 bits, run on from `start` over the bytes; JALLUMERE_DIGEST_START begins afresh. Gives the digest;
 * writes nothing. It finds damage; it is no protection against someone who means to deceive.
 */
uint64_t jallumere_digest(uint64_t start, const uint8_t *bytes, size_t length);

#ifdef __cplusplus
}
#endif

#endif
