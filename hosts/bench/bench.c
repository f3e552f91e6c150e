/* What a step costs, and putting a state in order: core against model, for each kind that a site handles, at capacities
 * 16, 256 and 4,096, with logs from empty to full, for the smallest and the largest shape (n = 3, S = 1 and n = 7,
 * S = 8). The figures go to the standard output as lines of CSV, of which ./jallumere bench has tables or a drawing
 * made (--help lists the options).
 *
 * Some rows are measured with chosen transactions too, in the same state but for these.
 *
 * Each cell is one state and one message. Both sides step copies of that state, turn by turn, in three passes over
 * all cells; the copies are restored outside of the timed part, and the best of all turns counts. The answers, the
 * next states and the outgoing bytes are compared on the way, and each answer is the one that its row names. */
#define _POSIX_C_SOURCE 200809L

#include "../common/host.h"
#include "../common/messages.h"
#include "../model/model.h"
#include "keys.h"

enum { COPIES_MOST = 64, COPIES_BYTES = 1 << 20, PASSES = 3, TURNS_LEAST = 2, SHAPES = 2, CAPACITIES = 3, FILLS = 5 };
enum { OWN_VIEW = 2 }; /* of every state here, after view 1 */

#define TURN_TIME 8e7 /* nanoseconds after which a cell has had turns enough in a pass */

const char program_name[] = "bench";

static const uint64_t shapes[SHAPES][2] = {{3, 1}, {7, 8}}, capacities[CAPACITIES] = {16, 256, 4096};

/* Lengths of the log, in sixteenths of C. */
static const uint64_t sixteenths[FILLS] = {0, 1, 4, 8, 16};
static const char *const fill_names[FILLS] = {"empty", "1/16", "1/4", "half", "full"};

static uint64_t turns = 20;

/* ---- the rows ----------------------------------------------------------------------------------------- */

/* How many of something, by the sizes; an eighth of a table is what waits early, and what a large step takes. */
enum amount {
    NONE,
    ONE,
    EIGHTH,
    ALL_BUT_ONE,
    TABLE,
    HALF_GROUPS,
    OTHER_GROUPS,
    GROUPS,
    MINORITY,
    FEW_REPLIES,
    MOST_REPLIES
};

/* Which entry a message of kind 1 or 3 names. */
enum named { NEW, FIRST_EARLY, LAST_EARLY };

enum { ORDERING }; /* in the place of a kind: no step, but jallumere_order */

/* A state and a message. The state is in view 2, normal and a follower's where the row says nothing else. With
 * kinds 4 and 23 the early entries are those that follow the log, else later ones. */
typedef struct {
    uint8_t kind;
    const char *name;
    uint8_t answer, status;
    bool leads;
    bool chosen; /* measured with chosen transactions too */
    enum amount early, late;
    enum amount held; /* each early entry's notes at a normal leader, else votes or replies */
    enum amount adds; /* entries that the step adds to the log */
    enum named names;
    bool amid;               /* due in the middle of early; of a timestamp note: lifted behind all of it */
    bool reversed;           /* early stands the other way round */
    uint8_t view;            /* the message's, where it is another than the state's */
    bool elsewhere, no_room; /* to another site; without an outgoing buffer */
    uint8_t state_cut, message_cut, last_byte; /* bytes that are missing; what the last place, a free one, holds */
} row;

static const row rows[] = {
    {1, "transaction, leader", .leads = true, .early = EIGHTH, .held = HALF_GROUPS},
    {1, "transaction, follower", .early = EIGHTH, .late = EIGHTH},
    {1, "amid C-1 early, leader", .leads = true, .early = ALL_BUT_ONE, .held = HALF_GROUPS, .amid = true},
    {1, "amid C-1 early, foll.", .early = ALL_BUT_ONE, .amid = true},
    {3, "timestamp note, agrees", .leads = true, .early = EIGHTH, .held = OTHER_GROUPS, .names = FIRST_EARLY},
    {3, "timestamp note, first", .leads = true, .early = EIGHTH, .held = HALF_GROUPS},
    {3, "note lifts over C-1", 0, .leads = true, .early = TABLE, .held = OTHER_GROUPS, .names = FIRST_EARLY,
     .amid = true},
    {4, "replica sync, 1 new", .early = EIGHTH, .adds = ONE, .chosen = true},
    {4, "replica sync, C/8 new", .early = EIGHTH, .adds = EIGHTH},
    {7, "change view, leader", .leads = true, .early = EIGHTH, .held = HALF_GROUPS, .view = 3},
    {7, "change view, follower", .early = EIGHTH, .late = EIGHTH, .view = 3},
    {8, "vote, rebuild", .status = JALLUMERE_STATUS_VIEW_CHANGE, .leads = true, .held = MINORITY, .chosen = true},
    {8, "vote, greater view", .leads = true, .early = EIGHTH, .held = HALF_GROUPS, .view = 3},
    {9, "start view", .status = JALLUMERE_STATUS_VIEW_CHANGE},
    {10, "sync status", .leads = true, .early = EIGHTH, .held = HALF_GROUPS},
    {11, "commit", .early = EIGHTH},
    {18, "verify request, log", .leads = true, .early = EIGHTH, .held = HALF_GROUPS},
    {18, "verify request, draft", .status = JALLUMERE_STATUS_CROSS_SHARD, .leads = true},
    {19, "verify reply, kept", .status = JALLUMERE_STATUS_CROSS_SHARD, .leads = true, .held = FEW_REPLIES},
    {19, "verify reply, merge", 0, JALLUMERE_STATUS_CROSS_SHARD, true, .held = MOST_REPLIES, .chosen = true},
    {23, "tick, leader, 0 due", .leads = true, .early = EIGHTH, .held = GROUPS, .chosen = true},
    {23, "tick, leader, 1 due", .leads = true, .early = EIGHTH, .held = GROUPS, .adds = ONE},
    {23, "tick, leader, C/8 due", .leads = true, .early = EIGHTH, .held = GROUPS, .adds = EIGHTH},
    {23, "tick, follower, 1 due", .early = EIGHTH, .adds = ONE},
    {23, "tick, follower, C/8 due", .early = EIGHTH, .adds = EIGHTH},
    {23, "tick, buffers full", .early = TABLE, .late = TABLE, .chosen = true},
    {ORDERING, "order, C early reversed", .early = TABLE, .reversed = true},
    {ORDERING, "order, C early in order", .early = TABLE},
    {23, "1: wrong length", 1, .early = EIGHTH, .state_cut = 1},
    {23, "1: last byte wrong", 1, .early = EIGHTH, .last_byte = 1},
    {23, "2: a byte short", 2, .early = EIGHTH, .message_cut = 1},
    {23, "3: to another site", 3, .early = EIGHTH, .elsewhere = true},
    {11, "4: an older view", 4, .early = EIGHTH, .view = 1},
    {23, "5: in status 2", 5, .status = JALLUMERE_STATUS_VIEW_CHANGE},
    {10, "6: to a follower", 6, .early = EIGHTH, .late = EIGHTH},
    {1, "7: known already", 7, .early = EIGHTH, .late = EIGHTH, .names = LAST_EARLY},
    {1, "8: early is full", 8, .leads = true, .early = TABLE, .held = HALF_GROUPS},
    {23, "9: no outgoing room", 9, .early = EIGHTH, .adds = ONE, .no_room = true},
};

enum { ROWS = sizeof rows / sizeof *rows };

/* A row at one shape, capacity and length of the log. */
typedef struct {
    const row *of;
    layout at;
    const char *fill;
    uint64_t filled; /* entries that the log shall have */
    uint64_t logged; /* that it has: where a step adds to the log, a full log is one that is full after it */
    unsigned answer;
    size_t room;                   /* in the outgoing buffer */
    double best[2];                /* nanoseconds of core and model; 0 before they are measured */
    const attack *against;         /* where transactions are chosen: against what, */
    uint64_t first_chosen, chosen; /* the position of the first, how many they are, */
    uint32_t *requests;            /* and their requests */
} cell;

static cell cells[SHAPES * ROWS * CAPACITIES * (FILLS + ATTACKS)];
static size_t cell_count;

static uint64_t amount_of(enum amount amount, const layout *at) {
    const uint64_t n = at->n, s = at->s, c = at->c;
    const uint64_t amounts[] = {0, 1, c / 8, c - 1, c, (s + 1) / 2, s - 1, s, majority_of(n) - 1, s / 2 - 1, s - 2};
    return amounts[amount];
}

/* A cell of a row, but for those that cannot happen: with one group alone nothing comes from another. */
static void add_cell(const row *of, const uint64_t shape[2], uint64_t capacity, unsigned fill) {
    cell made = {.of = of, .at = lay_out(shape[0], shape[1], capacity), .fill = fill_names[fill], .answer = of->answer};
    uint64_t added = amount_of(of->adds, &made.at);
    made.filled = capacity * sixteenths[fill] / 16;
    made.logged = made.filled + added <= capacity ? made.filled : capacity - added;
    made.room = of->no_room ? 0 : ample_room(&made.at);
    if (of->kind == JALLUMERE_COMMIT && made.answer == JALLUMERE_DONE && made.filled == 0)
        made.answer = JALLUMERE_NOTHING_TO_DO; /* with an empty log a commit point cannot rise */
    if (forms[of->kind].sender != OTHER_LEADER || made.at.s > 1)
        cells[cell_count++] = made;
}

/* A full cell again, with chosen transactions: all of them, or as many as fill the paths, the last of those that each
 * log has. There are none where so many do not fit. */
static void add_chosen(const cell *plain, const attack *against) {
    const row *of = plain->of;
    uint64_t c = plain->at.c, all = of->late == TABLE ? 3 * c : c, shared = of->status == 0 ? all : c / 2;
    cell made = *plain;
    made.against = against;
    made.chosen = against->hashes == 0 ? all : PATH_KEYS * against->hashes;
    if (against->hashes > 0 && made.chosen > shared)
        return;
    made.first_chosen = against->hashes == 0 ? 0 : shared - made.chosen;
    for (const cell *each = cells; made.requests == NULL && each < cells + cell_count; each++)
        if (each->against == against && each->chosen == made.chosen)
            made.requests = each->requests;
    if (made.requests == NULL) {
        made.requests = memory(made.chosen * sizeof *made.requests);
        choose_requests(made.requests, against, made.chosen);
    }
    cells[cell_count++] = made;
}

/* ---- a state and a message ---------------------------------------------------------------------------- */

/* Those of the cell that is measured. */
static uint8_t *state, *letter;
static size_t letter_length;

enum { OWN = -1 }; /* entries as this site has them, not another */

/* Timestamps rise by tens; two of eight entries share one, where the coordinator rises. */
static uint64_t time_of(uint64_t position) { return 10 * (position + (position % 8 == 7 ? 0 : 1)); }

/* A count and so many entries from a position on; they are the same in every log here, in every group. As another site
 * or group has them, some are missing past the half of the log, and some are later. */
static void put_entries(const cell *now, uint8_t *table, uint64_t first, uint64_t count, int other) {
    uint64_t kept = 0;
    for (uint64_t i = first; i < first + count; i++) {
        bool apart = other != OWN && i >= now->filled / 2;
        uint64_t delay = apart && i % 4 == 0 && other % 2 == 1 ? 5 : 0, command = i * UINT64_C(0x9e3779b97f4a7c15);
        bool chosen = i - now->first_chosen < now->chosen;
        uint64_t request = chosen ? now->requests[i - now->first_chosen] : i + 1;
        entry made = {time_of(i) + delay, command, request, coordinator_of(i, chosen), bit(now->at.s) - 1};
        if (!apart || (i + (unsigned)other) % 4 != 3)
            write_entry(table + entry_place(kept++), made);
    }
    store(table, kept, 4);
}

/* Early entries, at a leader with their notes of the first so many groups. */
static void put_early(const cell *now, uint64_t count, uint64_t held) {
    const row *of = now->of;
    bool follow = of->kind == JALLUMERE_REPLICA_SYNC || of->kind == JALLUMERE_TICK;
    uint8_t *early = state + now->at.early, kept[ENTRY_LENGTH];
    put_entries(now, early, follow ? now->logged : now->at.c, count, OWN);
    for (uint64_t i = 0; of->reversed && i < count / 2; i++) {
        uint8_t *one = early + entry_place(i), *other = early + entry_place(count - 1 - i);
        memcpy(kept, one, ENTRY_LENGTH);
        memcpy(one, other, ENTRY_LENGTH);
        memcpy(other, kept, ENTRY_LENGTH);
    }
    store(state + now->at.notes, of->leads ? count : 0, 4);
    for (uint64_t i = 0; of->leads && i < count; i++) {
        uint8_t *note = state + note_place(&now->at, i);
        memcpy(note, early + entry_place(i) + AT_TRANSACTION, TRANSACTION_LENGTH);
        for (uint64_t group = 0; group < held; group++)
            write_marked(note + note_group(group), true, load(early + entry_place(i), 8));
    }
}

/* Every group's leader is replica 0; a follower here is replica 1. In a change of view there are votes of the first
 * replicas, or a draft and replies of the first other groups. */
static void put_state(const cell *now) {
    const row *of = now->of;
    const layout *at = &now->at;
    uint64_t held = amount_of(of->held, at);
    memset(state, 0, at->length);
    state[AT_REPLICA] = of->leads ? 0 : 1;
    state[AT_STATUS] = of->status == 0 ? JALLUMERE_STATUS_NORMAL : of->status;
    store(state + AT_VIEW, OWN_VIEW, 4);
    store(state + AT_LAST_NORMAL, of->status == 0 ? OWN_VIEW : OWN_VIEW - 1, 4);
    store(state + AT_SYNC, now->logged, 8);
    put_entries(now, state + at->log, 0, now->logged, OWN);
    put_early(now, amount_of(of->early, at), held);
    put_entries(now, state + at->late, 2 * at->c, amount_of(of->late, at), OWN);
    for (uint64_t replica = 0; of->status == JALLUMERE_STATUS_VIEW_CHANGE && replica < held; replica++) {
        write_vote_head(state + vote_place(at, replica), OWN_VIEW - 1, now->filled / 2);
        put_entries(now, state + vote_table(at, replica), 0, now->filled, (int)replica);
    }
    if (of->status == JALLUMERE_STATUS_CROSS_SHARD)
        put_entries(now, state + at->draft, 0, now->filled, 0);
    for (uint64_t group = 1; of->status == JALLUMERE_STATUS_CROSS_SHARD && group <= held; group++) {
        state[reply_place(at, group)] = 1;
        put_entries(now, state + reply_table(at, group), 0, now->filled, (int)group);
    }
    state[at->length - 1] = of->last_byte;
}

/* A message's entries behind their count, by its kind; votes and replies are of another site or group. */
static void put_section(const cell *now, uint8_t *table, int sender) {
    const row *of = now->of;
    const uint64_t c = now->at.c, positions[] = {[NEW] = 3 * c, [FIRST_EARLY] = c, [LAST_EARLY] = c + c / 8 - 1};
    if (of->kind == JALLUMERE_VOTE || of->kind == JALLUMERE_VERIFY_REPLY)
        put_entries(now, table, 0, now->filled, sender);
    else if (forms[of->kind].entries == ANY_LOG)
        put_entries(now, table, 0, now->logged + amount_of(of->adds, &now->at), OWN);
    else
        put_entries(now, table, positions[of->names], forms[of->kind].entries, OWN);
    if (of->kind == JALLUMERE_TRANSACTION) /* it has no timestamp yet */
        store(table + entry_place(0), 0, 8);
    if (of->kind == JALLUMERE_TIMESTAMP_NOTE && of->names == FIRST_EARLY) /* later than the notes that are held */
        store(table + entry_place(0), time_of(of->amid ? 2 * c : c) + 5, 8);
}

static void put_letter(const cell *now) {
    static const uint8_t views[4 * GROUPS_MOST];
    const row *of = now->of;
    const form *has = &forms[of->kind];
    message made = message_of_kind(of->kind, now->at.s);
    uint64_t kind = of->kind, due = amount_of(of->adds, &now->at), c = now->at.c;
    uint8_t *table = letter + length_of(&made) - 4;
    made.views = views;
    made.to_group = 0;
    made.to_mask = of->leads || of->elsewhere ? 1 : 2;
    if (has->path == INSIDE) { /* from the leader, or from the last of the other groups or replicas */
        made.from_group = has->sender == OTHER_LEADER ? now->at.s - 1 : 0;
        made.from_replica = has->sender == OTHER_REPLICA ? now->at.n - 1 : 0;
    }
    made.view = !has->has_views ? 0 : of->view == 0 ? OWN_VIEW : of->view;
    made.numbers[0] = kind == JALLUMERE_TRANSACTION      ? (of->amid ? time_of(c + c / 2) - 100 : 10 * c)
                      : kind == JALLUMERE_VOTE           ? made.view - 1
                      : kind == JALLUMERE_TICK           ? (due == 0 ? 0 : time_of(now->logged + due - 1))
                      : kind == JALLUMERE_VERIFY_REQUEST ? 0 /* the whole log */
                                                         : now->filled;
    made.numbers[1] = kind == JALLUMERE_TRANSACTION ? 100 : now->filled / 2;
    put_section(now, table, (int)(made.from_group + made.from_replica));
    made.count = load(table, 4);
    put_opening(letter, &made);
    letter_length = length_of(&made) - of->message_cut;
}

/* ---- measuring ---------------------------------------------------------------------------------------- */

static __typeof__(jallumere_step) *const steps[2] = {jallumere_step, model_step};
static __typeof__(jallumere_order) *const orders[2] = {jallumere_order, model_order};

/* Copies of one state for a side, and the buffer that its steps send into. */
static uint8_t *copies[2], *out[2];

/* The call that a cell measures, by one side, on one copy. */
static inline uint64_t make_call(const cell *now, int side, uint8_t *own) {
    const size_t lent = now->at.length - now->of->state_cut;
    return now->of->kind == ORDERING
               ? orders[side](SIZES(&now->at), own, lent)
               : steps[side](SIZES(&now->at), own, lent, letter, letter_length, out[side], now->room);
}

/* What reading the clock takes of a measured time. */
static double clock_time;

/* The processor's time of this thread, so that other work on the machine is not counted. */
static double thread_time(void) {
    struct timespec time;
    clock_gettime(CLOCK_THREAD_CPUTIME_ID, &time);
    return 1e9 * (double)time.tv_sec + (double)time.tv_nsec;
}

static void check_same(const cell *now, const uint64_t answers[2]) {
    bool same = answers[0] == answers[1] && memcmp(copies[0], copies[1], now->at.length) == 0 &&
                memcmp(out[0], out[1], JALLUMERE_LENGTH(answers[1])) == 0;
    if (same && JALLUMERE_NUMBER(answers[1]) == now->answer)
        return;
    fprintf(stderr, "bench: %s at kind %u, %s, n %ju, S %ju, C %ju, log %ju: %u + 256 * %ju and %u + 256 * %ju\n",
            same ? "not the answer that the row names" : "core and model differ", now->of->kind, now->of->name,
            SIZES(&now->at), now->filled, JALLUMERE_NUMBER(answers[0]), answers[0] / 256, JALLUMERE_NUMBER(answers[1]),
            answers[1] / 256);
    exit(1);
}

/* Turns of both sides, each over as many copies of the state; a cell keeps the best of this pass and those before. */
static void measure(cell *now) {
    size_t length = now->at.length, count = COPIES_BYTES / length;
    uint64_t answers[2] = {0, 0};
    count = count < 1 ? 1 : count > COPIES_MOST ? COPIES_MOST : count;
    put_state(now);
    put_letter(now);
    double begin = thread_time();
    for (uint64_t turn = 0; turn < turns; turn++) {
        for (int side = 0; side < 2; side++) {
            for (size_t i = 0; i < count; i++)
                memcpy(copies[side] + length * i, state, length);
            double before = thread_time();
            for (uint8_t *own = copies[side]; own < copies[side] + length * count; own += length)
                answers[side] = make_call(now, side, own);
            double taken = thread_time() - before - clock_time;
            taken = (taken < 1 ? 1 : taken) / (double)count;
            if (now->best[side] == 0 || taken < now->best[side])
                now->best[side] = taken;
        }
        check_same(now, answers);
        if (turn + 1 >= TURNS_LEAST && thread_time() - begin > TURN_TIME)
            break;
    }
}

static void measure_all(void) {
    const layout most = lay_out(REPLICAS_MOST, GROUPS_MOST, CAPACITY_MOST);
    state = memory(most.length);
    letter = memory(opening_length(GROUPS_MOST, NUMBERS_MOST) + most.table);
    for (int side = 0; side < 2; side++) {
        copies[side] = memory(most.length > COPIES_BYTES ? most.length : COPIES_BYTES);
        out[side] = memory(ample_room(&most));
    }
    clock_time = 1e300;
    for (int i = 0; i < 1000; i++) {
        double begin = thread_time(), taken = thread_time() - begin;
        clock_time = taken < clock_time ? taken : clock_time;
    }
    for (size_t done = 0; done < PASSES * cell_count; done++) {
        measure(&cells[done % cell_count]);
        show_progress(done, PASSES * cell_count, "cells, in three passes");
    }
}

int main(int count, char **words) {
    bool ratios_alone = false;
    const option options[] = {{"--ratios", .flag = &ratios_alone},
                              {"--turns", .number = &turns, .least = 1, .most = 1000000},
                              {NULL, .flag = NULL}};
    read_words(count, words, options, NULL);
    for (int shape = 0; shape < SHAPES; shape++)
        for (const row *of = rows; of < rows + ROWS; of++)
            for (unsigned i = 0; i < CAPACITIES * FILLS; i++)
                add_cell(of, shapes[shape], capacities[i / FILLS], i % FILLS);
    size_t plain = cell_count;
    for (size_t i = 0; i < plain; i++)
        for (const attack *against = attacks; against < attacks + ATTACKS; against++)
            if (cells[i].of->chosen && cells[i].filled == cells[i].at.c)
                add_chosen(&cells[i], against);
    measure_all();
    /* With ratios alone the two times are multiples of the model's in the first cell. */
    const char *ending = ratios_alone ? "" : "_ns";
    double unit = ratios_alone ? cells[0].best[1] : 1;
    printf("kind,step,n,s,c,log,answer,core%s,model%s,ratio,keys\n", ending, ending);
    for (const cell *each = cells; each < cells + cell_count; each++)
        printf("%u,\"%s\",%ju,%ju,%ju,%s,%u,%.3f,%.3f,%.3f,%s\n", each->of->kind, each->of->name, SIZES(&each->at),
               each->fill, each->answer, each->best[0] / unit, each->best[1] / unit, each->best[0] / each->best[1],
               each->against == NULL ? "plain" : each->against->name);
    return 0;
}
