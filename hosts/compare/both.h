/* Calls of the core and of the model side by side. Of each the answers, every byte of the state and of the
 * outgoing buffer, and the bytes around both are compared; the first difference is printed and ends the program
 * with status 1. */
#include "../common/host.h"
#include "../common/messages.h"
#include "../model/model.h"

enum { SIDES = 2, GUARD_LENGTH = 64, SHOWN_ROWS = 24, LETTER_ROOM = 1 << 18 };

static const char *const side_names[SIDES] = {"core", "model"};

/* The sizes that everything is made and called with, now and then wrong ones; their length is that of the state. */
static layout at;
static uint64_t seed = 1, steps_done;

/* The bytes lent to each side, which lie between guards: after a call, the state that it was left with and its
 * outgoing buffer. */
static uint8_t *state_of[SIDES], *out_of[SIDES], *pattern;

/* A message under way; one that is written anew has LETTER_ROOM bytes for it. */
typedef struct {
    uint8_t *bytes;
    size_t length;
} letter;

static void compose(letter *to, const message *made) {
    to->length = (size_t)(put_message(to->bytes, made) - to->bytes);
}

/* In memory of its own, which is to be freed: so reading past its end can be noticed. */
static letter copy_of(const uint8_t *bytes, size_t length) {
    letter made = {memory(length), length};
    copy(made.bytes, bytes, length);
    return made;
}

/* ---- what has been reached --------------------------------------------------------------------------- */

/* Where a step's state and message come from. */
enum origin { FROM_RUN, FROM_EDIT, BUILT, UNORDERED, DAMAGED_MESSAGE, DAMAGED_STATE, WRONG_SIZES, RECORDED, ORIGINS };

#define BY_ANSWER "        0        1        2        3        4        5        6        7        8        9"
#define BY_SPAN "            C = 16                 17          18 to 255                256              4,096"
static const char *const origins[] = {
    "run",         "odd run",  "built", "early out of order", "damaged message", "damaged state",
    "wrong sizes", "recorded", NULL};
static const char *const full_tables[] = {"log", "early", "late", "notes", "draft", "a vote", "a reply", NULL};
static const char *const after[] = {"done, by status after", NULL};
static const char *const wrong_fields[] = {"kind",
                                           "group",
                                           "mask",
                                           "sender's group",
                                           "sender's replica",
                                           "three zeros",
                                           "gView",
                                           "gVec's count",
                                           "numbers' count",
                                           "first number",
                                           "second number",
                                           "entries' count",
                                           "entry, or its time",
                                           "request",
                                           "coordinator",
                                           "mask of an entry",
                                           "where it is cut",
                                           "behind its end",
                                           NULL};

enum table { STEPS, SPANS, FULL, SOURCES, PLACED, ENTERED, STATES, ORDERS, MESSAGES, OFFSETS, TABLES };
enum { COLUMNS = 10 };

/* Of each table its head, what its rows are (NULL: kinds), how many columns there are, and whether they are pairs. */
static const struct {
    const char *head, *const *rows;
    unsigned columns;
    bool pairs;
} tables[TABLES] = {
    [STEPS] = {"\nsteps                 " BY_ANSWER "\n", NULL, 10, false},
    [SPANS] = {"\ndone + refused (2-9)  " BY_SPAN "\n", NULL, 10, true},
    [FULL] = {"\nfull + one place left " BY_SPAN "\n", full_tables, 10, true}, /* steps from a good state */
    [SOURCES] = {"\nsteps from            " BY_ANSWER "\n", origins, 10, false},
    [PLACED] = {"\ndone, by status before 1 follow   1 lead 2 follow   2 lead   3 lead\n", NULL, 5, false},
    [ENTERED] = {"", after, 3, false},
    [STATES] = {"\nstates                     good not good\n", origins, 2, false},
    [ORDERS] = {"\norder of a state         stayed  changed  refused\n", origins, 3, false},
    [MESSAGES] = {"\nmessages                 read 0        1        2  write 0        1        2        9\n", NULL, 7,
                  false},
    [OFFSETS] = {"\nmalformed, at             read     step    write\n", wrong_fields, 3, false},
};

/* What is no kind at all is counted as kind 0. */
static uint64_t counts[TABLES][KINDS][COLUMNS], lost_goodness[KINDS], starts[2], digests, exact, readings;

static unsigned kind_row(letter told) { return told.length != 0 && is_kind(told.bytes[0]) ? told.bytes[0] : 0; }

static unsigned span_of_capacity(void) {
    return at.c == 16 ? 0 : at.c == 17 ? 1 : at.c < 256 ? 2 : at.c == 256 ? 3 : 4;
}

/* Which tables of a good state are full or have one place left; of votes and replies the fullest counts. */
static void count_full(const uint8_t *state) {
    const size_t firsts[] = {at.log, at.early, at.late, at.notes, at.draft, vote_table(&at, 0), reply_table(&at, 0)};
    for (unsigned row = 0; row < 7; row++) {
        uint64_t fullest = 0;
        for (uint64_t i = 0; i < (row == 5 ? at.n : row == 6 ? at.s : 1); i++) {
            uint64_t count = load(state + firsts[row] + (row == 5 ? at.vote : at.reply) * i, 4);
            fullest = count > fullest ? count : fullest;
        }
        if (fullest + 1 >= at.c)
            counts[FULL][row][2 * span_of_capacity() + (fullest + 1 == at.c)]++;
    }
}

static void count_step(const uint8_t *state, unsigned kind, unsigned number, enum origin from) {
    unsigned status = state[AT_STATUS];
    steps_done++;
    counts[STEPS][kind][number]++;
    counts[SOURCES][from][number]++;
    if (number != JALLUMERE_WRONG_STATE) {
        counts[SPANS][kind][2 * span_of_capacity() + (number != 0)]++;
        count_full(state);
    }
    if (number != JALLUMERE_DONE)
        return;
    counts[PLACED][kind][status == JALLUMERE_STATUS_CROSS_SHARD ? 4 : 2 * (status - 1) + state_leads(&at, state)]++;
    counts[ENTERED][0][state_of[1][AT_STATUS] - 1]++;
    lost_goodness[kind] += model_good(SIZES(&at), state_of[1], at.length) != JALLUMERE_DONE;
}

/* The field of a message of some kind that begins at an offset, by its place in wrong_fields. */
static unsigned field_at(uint64_t kind, size_t offset) {
    static const uint8_t of_header[] = {0, 1, 2, 3, 4, 5, 0, 0, 6, 0, 0, 0, 7},
                         of_entry[] = {12, 13, 13, 13, 13, 14, 15};
    if (offset <= HEADER_LENGTH)
        return of_header[offset];
    size_t opening = length_of_kind(kind, at.s, 0), numbers = opening - 8 - 8 * (size_t)forms[kind].numbers;
    return offset >= opening       ? of_entry[((offset - opening) % ENTRY_LENGTH + 2) / 4]
           : offset == opening - 4 ? 11
                                   : 8 + (unsigned)(offset - numbers + 4) / 8;
}

/* Where a message of some kind was found malformed; of one that is read it is known how long it is and should be. */
static void count_offset(uint64_t answer, unsigned column, uint64_t kind, size_t length, size_t end) {
    size_t offset = JALLUMERE_OFFSET(answer);
    if (JALLUMERE_NUMBER(answer) == JALLUMERE_MALFORMED)
        counts[OFFSETS][offset == length ? 16 : offset != 0 && offset == end ? 17 : field_at(kind, offset)][column]++;
}

/* Counts stand in pairs where there are two to a column; of kinds the last line is what is none. */
static void show_table(enum table table) {
    const char *const *names = tables[table].rows;
    char kind[48];
    printf("%s", tables[table].head);
    for (unsigned i = 0; names == NULL ? i < KINDS : names[i] != NULL; i++) {
        unsigned row = names == NULL ? (i + 1) % KINDS : i;
        if (names == NULL && row != 0 && !is_kind(row))
            continue;
        snprintf(kind, sizeof kind, "%u %s", row, kind_name(row));
        printf("%-22s", names != NULL ? names[i] : row != 0 ? kind : "no kind");
        for (unsigned column = 0; column < tables[table].columns; column++)
            printf(tables[table].pairs && column % 2 == 1 ? " +%8" PRIu64 : "%9" PRIu64, counts[table][row][column]);
        printf("\n");
    }
}

/* Of the kinds that a site takes, the one with the fewest done steps at a capacity. */
static uint64_t least_done(unsigned span) {
    uint64_t least = UINT64_MAX;
    for (unsigned kind = 0; kind < KINDS; kind++)
        if (is_kind(kind) && forms[kind].path != OUTBOUND && counts[SPANS][kind][2 * span] < least)
            least = counts[SPANS][kind][2 * span];
    return least;
}

static void show_tables(void) {
    for (unsigned i = 0; i < TABLES; i++)
        show_table(i);
    printf("\nstarts: %" PRIu64 " done, %" PRIu64 " refused; digests: %" PRIu64 "; states read by field: %" PRIu64
           "; steps with an exact buffer: %" PRIu64 "\n",
           starts[0], starts[1], digests, readings, exact);
    for (unsigned kind = 0; kind < KINDS; kind++)
        if (lost_goodness[kind] != 0)
            printf("kind %u done from an odd good state, and the next state is not good: %" PRIu64 "\n", kind,
                   lost_goodness[kind]);
    printf("done steps of each kind: at least %" PRIu64 " at C = 16, %" PRIu64 " at 17, %" PRIu64 " at 256, %" PRIu64
           " at 4,096\n",
           least_done(0), least_done(1), least_done(3), least_done(4));
}

/* ---- differences ------------------------------------------------------------------------------------- */

/* Rows of 16 bytes: with two lots those that differ, with one those that are not all zero. */
static void show_bytes(const char *title, const uint8_t *one, const uint8_t *other, size_t length) {
    static const uint8_t zeros[16];
    unsigned rows = 0;
    printf("%s, %zu bytes%s:\n", title, length, other == NULL ? "" : ", where they differ");
    for (size_t first = 0; first < length && rows < SHOWN_ROWS; first += 16) {
        size_t width = length - first < 16 ? length - first : 16;
        if (memcmp(one + first, other == NULL ? zeros : other + first, width) == 0)
            continue;
        for (int side = 0; side < (other == NULL ? 1 : SIDES); side++) {
            printf("  %-8s %8zu:", other == NULL ? "" : side_names[side], first);
            for (size_t i = first; i < first + width; i++)
                printf(" %02x", (side == 0 ? one : other)[i]);
            printf("\n");
        }
        rows++;
    }
    if (rows == SHOWN_ROWS)
        printf("  ...\n");
}

/* A difference was found; the rows of the given bytes that tell something are shown. */
_Noreturn static void end_with_difference(const char *call, const char *why, const uint8_t *bytes, size_t length) {
    printf("DIFFERENCE in %s: %s\nseed %" PRIu64 ", after %" PRIu64 " steps; n %" PRIu64 ", S %" PRIu64 ", C %" PRIu64
           "\n",
           call, why, seed, steps_done, SIZES(&at));
    show_bytes("given", bytes, NULL, length);
    show_tables();
    exit(1);
}

/* ---- calls that write nothing ------------------------------------------------------------------------ */

static uint64_t agree(const char *call, uint64_t core, uint64_t model, const uint8_t *bytes, size_t length) {
    char why[160];
    snprintf(why, sizeof why,
             "the core answers %" PRIu64 " (%u + 256 * %" PRIu64 "), the model %" PRIu64 " (%u + 256 * %" PRIu64 ")",
             core, JALLUMERE_NUMBER(core), core / 256, model, JALLUMERE_NUMBER(model), model / 256);
    if (core != model)
        end_with_difference(call, why, bytes, length);
    return core;
}

/* What both answer to the same call, about some given bytes. */
#define AGREE(call, bytes, length, ...)                                                                                \
    agree(#call, jallumere_##call(__VA_ARGS__), model_##call(__VA_ARGS__), bytes, length)

/* Every field, group and field of an entry, and numbers next to these; of entries a few positions. */
static void try_state_readers(const uint8_t *state) {
    uint64_t logged = model_field(SIZES(&at), JALLUMERE_FIELD_LOG_LENGTH, state, at.length), any = draw();
    const uint64_t positions[] = {0, 1, below(logged), logged, logged + 1, at.c, at.c + 1, any};
    for (uint64_t i = 0; i <= JALLUMERE_FIELD_LEADER + 1; i++) {
        AGREE(field, state, at.length, SIZES(&at), i, state, at.length);
        AGREE(group_view, state, at.length, SIZES(&at), i, state, at.length);
    }
    for (unsigned i = 0; i < 8; i++)
        for (uint64_t field = 0; field <= JALLUMERE_ENTRY_MASK + 1; field++)
            AGREE(entry, state, at.length, SIZES(&at), positions[i], field, state, at.length);
    AGREE(field, state, at.length, SIZES(&at), any, state, at.length);
    readings++;
}

static bool try_good(const uint8_t *state, enum origin from) {
    uint64_t answer = AGREE(good, state, at.length, SIZES(&at), state, at.length);
    counts[STATES][from][answer != JALLUMERE_DONE]++;
    if (chance(20))
        try_state_readers(state);
    return answer == JALLUMERE_DONE;
}

static uint64_t try_read(letter told) {
    letter given = copy_of(told.bytes, told.length);
    uint64_t answer = AGREE(read, given.bytes, given.length, at.n, at.s, given.bytes, given.length);
    uint64_t end = AGREE(message_length, given.bytes, given.length, at.n, at.s, given.bytes, given.length);
    free(given.bytes);
    counts[MESSAGES][kind_row(told)][JALLUMERE_NUMBER(answer)]++;
    count_offset(answer, 0, kind_row(told), told.length, end);
    return answer;
}

/* ---- calls that write -------------------------------------------------------------------------------- */

static void make_areas(void) {
    layout largest = lay_out(REPLICAS_MOST, GROUPS_MOST, CAPACITY_MOST);
    size_t most = largest.length + ample_room(&largest) + 2 * GUARD_LENGTH;
    for (int side = 0; side < SIDES; side++) {
        state_of[side] = (uint8_t *)memory(most) + GUARD_LENGTH;
        out_of[side] = (uint8_t *)memory(most) + GUARD_LENGTH;
    }
    pattern = memory(most);
    for (size_t i = 0; i < most; i++)
        pattern[i] = (uint8_t)(i * 37 + i / 256 + 11);
}

static void lend(const uint8_t *state, size_t length, size_t room) {
    for (int side = 0; side < SIDES; side++) {
        memcpy(state_of[side] - GUARD_LENGTH, pattern, GUARD_LENGTH);
        copy(state_of[side], state, length);
        memcpy(state_of[side] + length, pattern, GUARD_LENGTH);
        memcpy(out_of[side] - GUARD_LENGTH, pattern, room + 2 * GUARD_LENGTH);
    }
}

/* Whether a side kept to what it was lent: guards whole, and nothing written where it refused; and whether its answer
 * is one that may be given for such a message. */
static const char *misuse(int side, uint64_t answer, const uint8_t *state, size_t length, size_t room, letter told) {
    size_t sent = JALLUMERE_LENGTH(answer);
    if (memcmp(state_of[side] - GUARD_LENGTH, pattern, GUARD_LENGTH) != 0 ||
        memcmp(state_of[side] + length, pattern, GUARD_LENGTH) != 0)
        return "written outside of the state";
    /* The writer tells places of the message that its kind would have, which may be longer than what it was given. */
    size_t opening = state == NULL ? length_of_kind(JALLUMERE_FAST_REPLY, GROUPS_MOST, 0) : 0;
    if (!answer_fits(answer, room, told.length > opening ? told.length : opening))
        return "a length beyond the room, an offset beyond the message, or one of them beside another refusal";
    if (memcmp(out_of[side] - GUARD_LENGTH, pattern, GUARD_LENGTH) != 0 ||
        memcmp(out_of[side] + sent, pattern + GUARD_LENGTH + sent, room - sent + GUARD_LENGTH) != 0)
        return "written behind the outgoing bytes";
    if (JALLUMERE_NUMBER(answer) != 0 && length != 0 && memcmp(state_of[side], state, length) != 0)
        return "a refusal that left something behind";
    return NULL;
}

/* Compares what both were left with; what was told them is shown where they differ. */
static uint64_t compare_sides(const char *call, const uint64_t answers[SIDES], const uint8_t *state, size_t length,
                              size_t room, letter told) {
    char place[PLACE_ROOM];
    size_t byte = 0;
    const char *why = answers[0] != answers[1]                        ? "the answers differ"
                      : memcmp(state_of[0], state_of[1], length) != 0 ? "the states differ"
                      : memcmp(out_of[0], out_of[1], room) != 0       ? "the outgoing buffers differ"
                                                                      : NULL;
    for (int side = 0; side < SIDES && why == NULL; side++)
        why = misuse(side, answers[side], state, length, room, told);
    if (why == NULL)
        return answers[1];
    for (int side = 0; side < SIDES; side++)
        printf("%s: answer %u, length or offset %" PRIu64 "\n", side_names[side], JALLUMERE_NUMBER(answers[side]),
               answers[side] / 256);
    while (byte < length && state_of[0][byte] == state_of[1][byte])
        byte++;
    if (byte < length && length == lay_out(SIZES(&at)).length)
        printf("first byte of the state that differs: %zu, %s\n", byte, describe_place(&at, state_of[1], byte, place));
    printf("room %zu\n", room);
    show_bytes("state before", state, NULL, length);
    show_bytes("state after", state_of[0], state_of[1], length);
    show_bytes("outgoing buffer", out_of[0], out_of[1], room);
    end_with_difference(call, why, told.bytes, told.length);
}

static uint64_t try_step(const uint8_t *state, letter told, size_t room, enum origin from) {
    static __typeof__(jallumere_step) *const steps[SIDES] = {jallumere_step, model_step};
    uint64_t answers[SIDES];
    letter given = copy_of(told.bytes, told.length);
    lend(state, at.length, room);
    for (int side = 0; side < SIDES; side++)
        answers[side] =
            steps[side](SIZES(&at), state_of[side], at.length, given.bytes, given.length, out_of[side], room);
    uint64_t answer = compare_sides("step", answers, state, at.length, room, given);
    count_step(state, kind_row(told), JALLUMERE_NUMBER(answer), from);
    count_offset(answer, 1, kind_row(told), told.length, model_message_length(at.n, at.s, given.bytes, given.length));
    exact += JALLUMERE_NUMBER(answer) == 0 && JALLUMERE_LENGTH(answer) == room;
    free(given.bytes);
    return answer;
}

static void try_start(uint64_t group, uint64_t replica) {
    lend(pattern, at.length, 0);
    const uint64_t answers[] = {jallumere_start(SIZES(&at), group, replica, state_of[0], at.length),
                                model_start(SIZES(&at), group, replica, state_of[1], at.length)};
    starts[compare_sides("start", answers, pattern, at.length, 0, (letter){0}) != JALLUMERE_DONE]++;
}

/* What is good stays as it is, and of the rest what is put in order is good then. */
static uint64_t try_order(const uint8_t *state, enum origin from) {
    lend(state, at.length, 0);
    const uint64_t answers[] = {jallumere_order(SIZES(&at), state_of[0], at.length),
                                model_order(SIZES(&at), state_of[1], at.length)};
    uint64_t answer = compare_sides("order", answers, state, at.length, 0, (letter){0});
    bool changed = memcmp(state_of[1], state, at.length) != 0, done = answer == JALLUMERE_DONE;
    if ((done && !changed) != (jallumere_good(SIZES(&at), state, at.length) == JALLUMERE_DONE))
        end_with_difference("order", "a good state does not stay as it is, or another does", state, at.length);
    if (done && jallumere_good(SIZES(&at), state_of[0], at.length) != JALLUMERE_DONE)
        end_with_difference("order", "the state that it leaves is not good", state, at.length);
    counts[ORDERS][from][done ? changed : 2]++;
    return answer;
}

/* Whether a message with these fields can be put into bytes, which are then read. */
static bool has_bytes(const message *made, size_t views_length, size_t entries_length) {
    const uint64_t bytes = made->kind | made->to_group | made->to_mask | made->from_group | made->from_replica;
    return bytes <= UINT8_MAX && made->view <= UINT32_MAX && views_length == 4 * made->view_count &&
           entries_length == ENTRY_LENGTH * made->count;
}

static uint64_t try_write(const message *made, size_t views_length, size_t entries_length, size_t room) {
    static __typeof__(jallumere_write) *const writers[SIDES] = {jallumere_write, model_write};
    static const unsigned columns[ANSWERS] = {[0] = 3, [1] = 4, [2] = 5, [9] = 6};
    uint64_t answers[SIDES];
    letter given = {memory(length_of(made)), 0};
    compose(&given, made);
    lend(NULL, 0, room);
    for (int side = 0; side < SIDES; side++)
        answers[side] = writers[side](at.n, at.s, made->kind, made->to_group, made->to_mask, made->from_group,
                                      made->from_replica, made->view, made->numbers, made->number_count, made->views,
                                      views_length, made->entries, entries_length, out_of[side], room);
    if (answers[0] != answers[1]) /* the bytes shown have no room for fields that are too wide */
        printf("kind %" PRIu64 " to %" PRIu64 " mask %" PRIu64 " from %" PRIu64 " %" PRIu64 " view %" PRIu64
               ", %zu bytes of views, %zu of entries\n",
               made->kind, made->to_group, made->to_mask, made->from_group, made->from_replica, made->view,
               views_length, entries_length);
    uint64_t answer = compare_sides("write", answers, NULL, 0, room, given);
    counts[MESSAGES][is_kind(made->kind) ? made->kind : 0][columns[JALLUMERE_NUMBER(answer)]]++;
    count_offset(answer, 2, made->kind, SIZE_MAX, SIZE_MAX);
    /* Numbers that are not as many as the kind has are told before what else is wrong, which a reader of bytes cannot. */
    bool counted = is_kind(made->kind) && made->number_count == forms[made->kind].numbers;
    if (counted && has_bytes(made, views_length, entries_length)) {
        uint64_t read = model_read(at.n, at.s, given.bytes, given.length), number = JALLUMERE_NUMBER(answer);
        if (read != (number == JALLUMERE_DONE || number == JALLUMERE_NO_ROOM ? JALLUMERE_DONE : answer))
            end_with_difference("write", "the reader says otherwise of these bytes", given.bytes, given.length);
    }
    free(given.bytes);
    return answer;
}
