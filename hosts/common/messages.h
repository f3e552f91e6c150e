/* Messages: which sections each kind has, their making and taking apart, and the names of kinds, answers and
 * statuses. */
#ifndef MESSAGES_H
#define MESSAGES_H

#include "layout.h"

enum { HEADER_LENGTH = 12, NUMBERS_MOST = 3 };

enum path { INSIDE, INBOUND, OUTBOUND };       /* from and to groups, from outside, to outside */
enum entries { NO_ENTRY, ONE_ENTRY, ANY_LOG }; /* a kind's entries: their number, but for a log */

/* Who sends a kind within the groups: to followers their leader, to a leader a replica or another leader. */
enum sender { NOBODY, OWN_LEADER, OTHER_REPLICA, OTHER_LEADER };

/* The views in which a site takes a kind and the statuses in its own view; a greater view is taken in
 * any status. Both are sets, and views without one of these are not looked at. */
enum views { SAME_VIEW = 1, GREATER_VIEW = 2, EITHER_VIEW = 3 };
enum statuses { IN_1 = 1 << JALLUMERE_STATUS_NORMAL, IN_2 = 1 << JALLUMERE_STATUS_VIEW_CHANGE };
enum { IN_3 = 1 << JALLUMERE_STATUS_CROSS_SHARD };

typedef struct {
    const char *name; /* NULL where there is no such kind */
    bool has_views;
    uint8_t path, numbers, entries, sender, views, statuses;
} form;

static const form forms[KINDS] = {
    [JALLUMERE_TRANSACTION] = {"transaction", false, INBOUND, 2, ONE_ENTRY, NOBODY, 0, IN_1},
    [JALLUMERE_TIMESTAMP_NOTE] = {"timestamp note", true, INSIDE, 0, ONE_ENTRY, OTHER_LEADER, SAME_VIEW, IN_1},
    [JALLUMERE_REPLICA_SYNC] = {"replica sync", true, INSIDE, 0, ANY_LOG, OWN_LEADER, SAME_VIEW, IN_1},
    [JALLUMERE_FAST_REPLY] = {"fast reply", true, OUTBOUND, 3, ONE_ENTRY, NOBODY, 0, 0},
    [JALLUMERE_SLOW_REPLY] = {"slow reply", true, OUTBOUND, 1, ONE_ENTRY, NOBODY, 0, 0},
    [JALLUMERE_CHANGE_VIEW] = {"change view", true, INBOUND, 0, NO_ENTRY, NOBODY, GREATER_VIEW, 0},
    [JALLUMERE_VOTE] = {"vote", true, INSIDE, 2, ANY_LOG, OTHER_REPLICA, EITHER_VIEW, IN_2},
    [JALLUMERE_START_VIEW] = {"start view", true, INSIDE, 0, ANY_LOG, OWN_LEADER, EITHER_VIEW, IN_2},
    [JALLUMERE_SYNC_STATUS] = {"sync status", true, INSIDE, 1, NO_ENTRY, OTHER_REPLICA, SAME_VIEW, IN_1},
    [JALLUMERE_COMMIT] = {"commit", true, INSIDE, 1, NO_ENTRY, OWN_LEADER, SAME_VIEW, IN_1},
    [JALLUMERE_VERIFY_REQUEST] = {"verify request", true, INSIDE, 1, NO_ENTRY, OTHER_LEADER, SAME_VIEW, IN_1 | IN_3},
    [JALLUMERE_VERIFY_REPLY] = {"verify reply", true, INSIDE, 0, ANY_LOG, OTHER_LEADER, SAME_VIEW, IN_3},
    [JALLUMERE_TICK] = {"tick", false, INBOUND, 1, NO_ENTRY, NOBODY, 0, IN_1},
};

static inline bool is_kind(uint64_t kind) { return kind < KINDS && forms[kind].name != NULL; }

static inline const char *kind_name(uint64_t kind) { return is_kind(kind) ? forms[kind].name : "unknown kind"; }

static inline const char *answer_name(uint64_t answer) {
    static const char *const names[ANSWERS] = {
        "done",         "wrong size or state", "malformed",         "not addressed here", "wrong view",
        "wrong status", "wrong role",          "nothing to do now", "no room left",       "outgoing too short"};
    return answer < ANSWERS ? names[answer] : "unknown number";
}

/* Whether an answer keeps to its form: a length within the room beside 0, an offset within the message beside 2, and
 * beside the others nothing. */
static inline bool answer_fits(uint64_t answer, size_t room, size_t message_length) {
    unsigned number = JALLUMERE_NUMBER(answer);
    return answer / 256 <= (number == JALLUMERE_DONE ? room : number == JALLUMERE_MALFORMED ? message_length : 0);
}

static inline const char *status_name(uint64_t status) {
    static const char *const names[] = {"no status", "normal", "view change", "cross-shard"};
    return names[status <= JALLUMERE_STATUS_CROSS_SHARD ? status : 0];
}

/* ---- making and taking apart -------------------------------------------------------------------------- */

/* Fields are as wide as the core's writer is given them; views and entries stay where they lie. */
typedef struct {
    uint64_t kind, to_group, to_mask, from_group, from_replica, view;
    uint64_t numbers[NUMBERS_MOST];
    const uint8_t *views, *entries;
    uint64_t view_count, number_count, count;
    uint64_t zeros; /* what stands in their place in a message that is read */
} message;

/* An empty message of a kind: numbers and views (which are to be set) as many as it has, from and to outside. */
static inline message message_of_kind(uint64_t kind, uint64_t s) {
    const uint64_t outside = JALLUMERE_OUTSIDE, views = forms[kind].has_views ? s : 0;
    return (message){kind, outside, 1, outside, outside, .view_count = views, .number_count = forms[kind].numbers};
}

/* Everything before the entries, their count included; all of it; and the same by kind. */
static inline size_t opening_length(uint64_t view_count, uint64_t number_count) {
    return HEADER_LENGTH + 4 + 4 * (size_t)view_count + 4 + 8 * (size_t)number_count + 4;
}

static inline size_t length_of(const message *made) {
    return opening_length(made->view_count, made->number_count) + ENTRY_LENGTH * (size_t)made->count;
}

static inline size_t length_of_kind(uint64_t kind, uint64_t s, uint64_t count) {
    return opening_length(forms[kind].has_views ? s : 0, forms[kind].numbers) + ENTRY_LENGTH * (size_t)count;
}

/* Enough for a leader that releases a full log, which sends most: a fast reply for each, and the log once more. */
static inline size_t ample_room(const layout *at) {
    return length_of_kind(JALLUMERE_FAST_REPLY, at->s, 1) * (size_t)at->c +
           length_of_kind(JALLUMERE_REPLICA_SYNC, at->s, at->c);
}

/* Writes everything before the entries and gives the place where they go. */
static inline uint8_t *put_opening(uint8_t *to, const message *made) {
    const uint64_t header[] = {made->kind, made->to_group, made->to_mask, made->from_group, made->from_replica};
    for (unsigned i = 0; i < 5; i++)
        to[i] = (uint8_t)header[i];
    store(to + 5, 0, 3);
    store(to + 8, made->view, 4);
    store(to + HEADER_LENGTH, made->view_count, 4);
    to += HEADER_LENGTH + 4;
    copy(to, made->views, 4 * (size_t)made->view_count);
    to += 4 * made->view_count;
    store(to, made->number_count, 4);
    to += 4;
    for (uint64_t i = 0; i < made->number_count; i++, to += 8)
        store(to, made->numbers[i], 8);
    store(to, made->count, 4);
    return to + 4;
}

/* Gives the place behind the message. */
static inline uint8_t *put_message(uint8_t *to, const message *made) {
    to = put_opening(to, made);
    copy(to, made->entries, ENTRY_LENGTH * (size_t)made->count);
    return to + ENTRY_LENGTH * made->count;
}

/* Takes a message apart by its counts; false where they do not fit its length. The zeros are not looked at. */
static inline bool take_apart(const uint8_t *bytes, size_t length, message *told) {
    if (length < opening_length(0, 0))
        return false;
    *told = (message){bytes[0], bytes[1], bytes[2], bytes[3], bytes[4], load(bytes + 8, 4), .numbers = {0}};
    told->view_count = load(bytes + HEADER_LENGTH, 4);
    told->views = bytes + HEADER_LENGTH + 4;
    if (told->view_count > GROUPS_MOST || length < opening_length(told->view_count, 0))
        return false;
    const uint8_t *numbers = told->views + 4 * told->view_count;
    told->number_count = load(numbers, 4);
    if (told->number_count > NUMBERS_MOST || length < opening_length(told->view_count, told->number_count))
        return false;
    for (uint64_t i = 0; i < told->number_count; i++)
        told->numbers[i] = load(numbers + 4 + 8 * i, 8);
    told->entries = numbers + 4 + 8 * told->number_count + 4;
    told->count = load(told->entries - 4, 4);
    return length == length_of(told);
}

#endif
