/* Where everything lies in a state (docs/STATE.md) and in an entry, and its readers and writers. This is the host
 * programs' own reading of the documents; nothing of it is proved. */
#ifndef LAYOUT_H
#define LAYOUT_H

#include "../../include/jallumere.h"

#include <stdbool.h>
#include <string.h>

enum { REPLICAS_MOST = 7, GROUPS_MOST = 8, CAPACITY_LEAST = 16, CAPACITY_MOST = 4096 };
enum { KINDS = 24, ANSWERS = 10 }; /* more than the greatest of each */

/* Lengths; a transaction is a request and a coordinator, and what is marked a flag and 8 bytes. */
enum { HEAD_LENGTH = 48, ENTRY_LENGTH = 24, TRANSACTION_LENGTH = 6, MARKED_LENGTH = 9, VOTE_HEAD_LENGTH = 13 };

/* Places in the state's head, in an entry, whose timestamp stands first, and in a vote, whose flag does. */
enum { AT_GROUP = 0, AT_REPLICA = 1, AT_STATUS = 2, AT_ZEROS = 3, AT_VIEW = 8, AT_LAST_NORMAL = 12 };
enum { AT_CLOCK = 16, AT_SYNC = 24, AT_COMMIT = 32, AT_BOUNDARY = 40 };
enum { AT_COMMAND = 8, AT_TRANSACTION = 16, AT_COORDINATOR = 20, AT_MASK = 22 };
enum { AT_VOTE_LAST_NORMAL = 1, AT_VOTE_SYNC = 5 };

/* The fields of the head and of an entry by the numbers of the core's readers, which count from 1; those of the head
 * that have no reader stand around them. */
typedef struct {
    const char *name;
    uint8_t at, width;
} field_place;

enum { HEAD_FIELDS = 10 };
static const field_place head_fields[HEAD_FIELDS] = {
    {"the five zeros", AT_ZEROS, 5}, {"own group", AT_GROUP, 1}, {"own replica", AT_REPLICA, 1},
    {"status", AT_STATUS, 1},        {"gView", AT_VIEW, 4},      {"last normal gView", AT_LAST_NORMAL, 4},
    {"clock", AT_CLOCK, 8},          {"sync point", AT_SYNC, 8}, {"commit point", AT_COMMIT, 8},
    {"boundary", AT_BOUNDARY, 8}};
static const field_place entry_fields[] = {
    {0}, {"", 0, 8}, {"", AT_COMMAND, 8}, {"", AT_TRANSACTION, 4}, {"", AT_COORDINATOR, 2}, {"", AT_MASK, 2}};

#define GREATEST_TIMESTAMP UINT64_C(0x7fffffffffffffff)
#define TRANSACTION_BITS UINT64_C(0x0000ffffffffffff)

/* ---- bytes ------------------------------------------------------------------------------------------- */

/* Numbers have their low byte first. With a width that the compiler knows, each of these is one instruction. */
static inline uint64_t low_byte_first(uint64_t value) {
    return __BYTE_ORDER__ == __ORDER_BIG_ENDIAN__ ? __builtin_bswap64(value) : value;
}

static inline uint64_t load(const uint8_t *bytes, unsigned width) {
    uint64_t value = 0;
    memcpy(&value, bytes, width);
    return low_byte_first(value);
}

static inline void store(uint8_t *bytes, uint64_t value, unsigned width) {
    value = low_byte_first(value);
    memcpy(bytes, &value, width);
}

/* Sets of groups, replicas or statuses: the set of one, and whether it is in a set. */
static inline uint64_t bit(uint64_t number) { return UINT64_C(1) << number; }

static inline bool holds(uint64_t set, uint64_t number) { return set >> number & 1; }

/* A slice of length 0 may have a null pointer, which memcpy does not take. */
static inline void copy(uint8_t *to, const uint8_t *from, size_t length) {
    if (length != 0)
        memcpy(to, from, length);
}

/* ---- the sections of a state -------------------------------------------------------------------------- */

typedef struct {
    uint64_t n, s, c;
    size_t table, note, vote, reply;                                             /* lengths of one of each */
    size_t views, heard, log, early, late, notes, votes, draft, replies, length; /* where each begins */
} layout;

/* As the core's functions take them. */
#define SIZES(at) (at)->n, (at)->s, (at)->c

static inline bool replicas_and_groups_right(uint64_t n, uint64_t s) {
    return (n == 3 || n == 5 || n == 7) && s >= 1 && s <= GROUPS_MOST;
}

/* For wrong sizes everything is 0. */
static inline layout lay_out(uint64_t n, uint64_t s, uint64_t c) {
    layout at = {.n = n, .s = s, .c = c, .views = HEAD_LENGTH};
    if (!replicas_and_groups_right(n, s) || c < CAPACITY_LEAST || c > CAPACITY_MOST)
        return (layout){0};
    at.table = 4 + ENTRY_LENGTH * (size_t)c;
    at.note = TRANSACTION_LENGTH + MARKED_LENGTH * (size_t)s;
    at.vote = VOTE_HEAD_LENGTH + at.table;
    at.reply = 1 + at.table;
    at.heard = at.views + 4 * (size_t)s;
    at.log = at.heard + MARKED_LENGTH * (size_t)n;
    at.early = at.log + at.table;
    at.late = at.early + at.table;
    at.notes = at.late + at.table;
    at.votes = at.notes + 4 + (size_t)c * at.note;
    at.draft = at.votes + (size_t)n * at.vote;
    at.replies = at.draft + at.table;
    at.length = at.replies + (size_t)s * at.reply;
    return at;
}

/* Offsets in a state of the items of a section; a vote's and a reply's table stand behind their heads. */
#define PLACE(name, first, width)                                                                                      \
    static inline size_t name(const layout *at, uint64_t number) { return (first) + (width) * (size_t)number; }
PLACE(heard_place, at->heard, MARKED_LENGTH)
PLACE(note_place, at->notes + 4, at->note)
PLACE(vote_place, at->votes, at->vote)
PLACE(vote_table, at->votes + VOTE_HEAD_LENGTH, at->vote)
PLACE(reply_place, at->replies, at->reply)
PLACE(reply_table, at->replies + 1, at->reply)

/* Offsets in a table, which has a count before its entries, and in a note. */
static inline size_t entry_place(uint64_t position) { return 4 + ENTRY_LENGTH * (size_t)position; }

static inline size_t note_group(uint64_t group) { return TRANSACTION_LENGTH + MARKED_LENGTH * (size_t)group; }

/* ---- the order ---------------------------------------------------------------------------------------- */

/* What an entry is ordered by. The transaction has the coordinator above the request, so that transactions are ordered
 * as numbers. */
typedef struct {
    uint64_t timestamp, transaction;
} key;

static inline uint64_t transaction_at(const uint8_t *bytes) { return load(bytes, 8) & TRANSACTION_BITS; }

static inline key key_of(const uint8_t *entry) { return (key){load(entry, 8), transaction_at(entry + AT_TRANSACTION)}; }

/* By timestamp, then coordinator, then request. */
static inline bool later(key one, key other) {
    return one.timestamp > other.timestamp || (one.timestamp == other.timestamp && one.transaction > other.transaction);
}

/* Of so many entries that of the last; where there are none zeros, than which every entry is later. */
static inline key last_key(const uint8_t *entries, uint64_t count) {
    return count == 0 ? (key){0, 0} : key_of(entries + ENTRY_LENGTH * (count - 1));
}

/* ---- readers and writers ------------------------------------------------------------------------------ */

typedef struct {
    uint64_t timestamp, command, request, coordinator, mask;
} entry;

static inline entry read_entry(const uint8_t *bytes) {
    return (entry){load(bytes, 8), load(bytes + AT_COMMAND, 8), load(bytes + AT_TRANSACTION, 4),
                   load(bytes + AT_COORDINATOR, 2), load(bytes + AT_MASK, 2)};
}

static inline void write_entry(uint8_t *bytes, entry made) {
    store(bytes, made.timestamp, 8);
    store(bytes + AT_COMMAND, made.command, 8);
    store(bytes + AT_TRANSACTION, made.request, 4);
    store(bytes + AT_COORDINATOR, made.coordinator, 2);
    store(bytes + AT_MASK, made.mask, 2);
}

/* A flag and 8 bytes, which are 0 where the flag is. */
static inline void write_marked(uint8_t *marked, bool held, uint64_t value) {
    marked[0] = held;
    store(marked + 1, held ? value : 0, 8);
}

/* A table, of entries or of notes, keeps its first places; the rest becomes free. */
static inline void shorten(uint8_t *table, size_t place_length, uint64_t kept) {
    uint64_t before = load(table, 4);
    if (before > kept)
        memset(table + 4 + place_length * kept, 0, place_length * (size_t)(before - kept));
    store(table, kept, 4);
}

/* A table's entries in place of those that it had. */
static inline void write_table(uint8_t *table, const uint8_t *entries, uint64_t count) {
    shorten(table, ENTRY_LENGTH, count);
    copy(table + 4, entries, ENTRY_LENGTH * (size_t)count);
}

static inline void append_entry(uint8_t *table, const uint8_t *bytes) {
    uint64_t count = load(table, 4);
    memcpy(table + entry_place(count), bytes, ENTRY_LENGTH);
    store(table, count + 1, 4);
}

/* A vote's flag and numbers; its table is written by itself. */
static inline void write_vote_head(uint8_t *vote, uint64_t last_normal, uint64_t sync) {
    vote[0] = 1;
    store(vote + AT_VOTE_LAST_NORMAL, last_normal, 4);
    store(vote + AT_VOTE_SYNC, sync, 8);
}

/* The leader of a group by a gVec's bytes, and whether a state's own replica is its group's. */
static inline uint64_t leader_of(const uint8_t *views, uint64_t group, uint64_t n) {
    return load(views + 4 * group, 4) % n;
}

static inline bool state_leads(const layout *at, const uint8_t *state) {
    return state[AT_GROUP] < at->s && leader_of(state + at->views, state[AT_GROUP], at->n) == state[AT_REPLICA];
}

static inline uint64_t majority_of(uint64_t n) { return (n - 1) / 2 + 1; }

/* Half of the faults, rounded up, and one. */
static inline uint64_t recovery_of(uint64_t n) { return ((n - 1) / 2 + 1) / 2 + 1; }

/* In words, for people: the section with the field, or with the entry, note, vote or reply that a state's byte
 * belongs to, and what that says. */
enum { PLACE_ROOM = 160 };
const char *describe_place(const layout *at, const uint8_t *state, size_t byte, char room[PLACE_ROOM]);

#endif
