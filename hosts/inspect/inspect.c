/* A state's bytes as a report for people; and, where the state is not good, why not. Or a message's: see message.c. Or
 * what a step would make of a message: see against.c.
 *
 * Whether a state is good is decided by the core (jallumere_good), and whether only the order of its early entries is
 * missing (jallumere_order), as in one that a core before interface 2.1 has left. The reasons are the model's; where
 * the two disagree, the report says so. A file that is no whole state is shown as far as it goes.
 *
 * inspect STATE [--sites N --groups S --capacity C] [--all] [--order NEW]: 0 good, 1 not good, 2 bad usage or no such
 * shape. With --order, 0 where the file NEW has the state in order, 1 where it cannot have.
 * inspect --message MESSAGE [--sites N --groups S] [--all]: 0 well formed, 1 not, 2 bad usage.
 * inspect --state STATE --message MESSAGE [..]: 0 a step takes it, 1 it refuses it, 2 bad usage. */
#include "report.h"

#include "../model/model.h"

const char program_name[] = "inspect";

enum { SHOWN_REASONS = 12, SHAPES_MOST = 64 };

uint64_t asked_n, asked_s;
bool show_all;

/* What a state becomes by its order; the answer is JALLUMERE_DONE where it is good then. */
typedef struct {
    uint8_t *bytes;
    uint64_t answer;
} mending;

/* The state has zeros behind what the file has of it, which is `known`; what the file has in all is `given`. */
static uint64_t asked_c;
static const char *state_path, *message_path, *ordered_path;
static const uint8_t *state;
static size_t known, given;
static layout at;

/* ---- the report -------------------------------------------------------------------------------------- */

static bool ended;

/* The place of a byte without what stands there, since nothing does. */
static const char *name_place(size_t byte, char room[PLACE_ROOM]) {
    describe_place(&at, state, byte, room);
    room[strcspn(room, ":")] = 0;
    char *counts = strstr(room, " counts ");
    if (counts != NULL)
        strcpy(counts, "'s count");
    return room;
}

/* Whether the file has all bytes before a place. Where it has not, that is said once, and nothing follows. */
static bool reaches(size_t end) {
    char room[PLACE_ROOM];
    if (end > known && !ended)
        printf("%-14s here, at byte %zu, which would be in: %s\n", "the file ends", known, name_place(known, room));
    ended = ended || end > known;
    return !ended;
}

/* A table's count, or 0 for one that is past C, so that what follows can go on. */
static uint64_t count_within(const uint8_t *table) { return load(table, 4) <= at.c ? load(table, 4) : 0; }

/* The groups of a mask, in a column as wide as all that there are. */
static void print_groups(uint64_t mask) {
    int width = printf("groups %s", mask == 0 ? "none" : ""), all = 7 + 2 * (int)at.s;
    for (unsigned group = 0; mask >> group != 0; group++)
        if (holds(mask, group))
            width += printf("%u%s", group, mask >> group == 1 ? "" : ",");
    printf("%*s", width < all ? all - width : 0, "");
}

static void print_entries(const uint8_t *table, uint64_t sync, uint64_t commit, const char *indent) {
    static const char *const marks[] = {"", "  synced", "  committed", "  synced, committed"};
    uint64_t count = count_within(table);
    for (uint64_t i = 0; i < count && reaches((size_t)(table - state) + entry_place(i + 1)); i++) {
        entry read = read_entry(table + entry_place(i));
        if (!show_all && count > SHOWN_ENTRIES && i == SHOWN_ENTRIES / 2) {
            printf("%s ... %ju more (--all shows them)\n", indent, count - SHOWN_ENTRIES);
            i = count - SHOWN_ENTRIES / 2 - 1;
            continue;
        }
        printf("%s%4ju  at %-12ju transaction %ju.%-6ju ", indent, i + 1, read.timestamp, read.coordinator,
               read.request);
        print_groups(read.mask);
        printf("  command %#018jx%s\n", read.command, marks[(i < sync) + 2 * (i < commit)]);
    }
}

static void print_count(const char *name, uint64_t count) {
    if (count == 0)
        printf("%-14s empty\n", name);
    else
        printf("%-14s %ju of %ju\n", name, count, at.c);
}

static void print_table(const char *name, size_t table) {
    if (!reaches(table + 4))
        return;
    print_count(name, load(state + table, 4));
    print_entries(state + table, 0, 0, "  ");
}

static void print_marked(const uint8_t *marked, const char *ending) {
    if (marked[0] == 0)
        printf("not heard%s", ending);
    else
        printf("%ju%s", load(marked + 1, 8), ending);
}

static void print_notes(void) {
    uint64_t count = count_within(state + at.notes), shown = show_all || count < SHOWN_ENTRIES ? count : SHOWN_ENTRIES;
    if (!reaches(at.notes + 4))
        return;
    print_count("notes", count);
    for (const uint8_t *note = state + note_place(&at, 0); note < state + note_place(&at, shown); note += at.note) {
        if (!reaches((size_t)(note - state) + at.note))
            return;
        printf("  transaction %ju.%-6ju", load(note + 4, 2), load(note, 4));
        for (uint64_t group = 0; group < at.s; group++) {
            printf(" group %ju: ", group);
            print_marked(note + note_group(group), group + 1 < at.s ? "," : "\n");
        }
    }
    if (shown < count)
        printf("   ... %ju more (--all shows them)\n", count - shown);
}

/* A point of the log and, where the log is there so far, the digest that a fast reply at that position has. */
static void print_point(const char *name, size_t place) {
    const uint64_t point = load(state + place, 8);
    if (!reaches(place + 8))
        return;
    printf("%-14s %ju", name, point);
    if (known >= at.log + 4 && point <= count_within(state + at.log) && known >= at.log + entry_place(point))
        printf(", digest of the log so far %#018jx",
               jallumere_digest(JALLUMERE_DIGEST_START, state + at.log + 4, ENTRY_LENGTH * (size_t)point));
    printf("\n");
}

static void print_number(const char *name, size_t place) {
    if (reaches(place + 8))
        printf("%-14s %ju\n", name, load(state + place, 8));
}

/* The head, in the order of its bytes; the role is told where gVec is there. */
static void print_head(void) {
    const char *role = state_leads(&at, state) ? ", leader of its group" : ", follower";
    printf("%-14s %ju sites in a group, %ju group%s, capacity %ju, %zu bytes\n", "shape", at.n, at.s,
           at.s == 1 ? "" : "s", at.c, at.length);
    if (reaches(AT_STATUS))
        printf("%-14s group %u, replica %u%s\n", "site", state[AT_GROUP], state[AT_REPLICA],
               state[AT_GROUP] < at.s && known >= at.heard ? role : "");
    if (reaches(AT_STATUS + 1))
        printf("%-14s %u, %s\n", "status", state[AT_STATUS], status_name(state[AT_STATUS]));
    if (reaches(AT_CLOCK))
        printf("%-14s %ju, last normal in %ju\n", "gView", load(state + AT_VIEW, 4), load(state + AT_LAST_NORMAL, 4));
    print_number("clock", AT_CLOCK);
    print_point("sync point", AT_SYNC);
    print_point("commit point", AT_COMMIT);
    print_number("boundary", AT_BOUNDARY);
    for (uint64_t group = 0; group < at.s && reaches(at.views + 4 * (group + 1)); group++)
        printf("%-14s group %ju: view %ju, leader replica %ju\n", group == 0 ? "gVec" : "", group,
               load(state + at.views + 4 * group, 4), leader_of(state + at.views, group, at.n));
    for (uint64_t replica = 0; replica < at.n && reaches(heard_place(&at, replica + 1)); replica++) {
        printf("%-14s replica %ju: ", replica == 0 ? "sync heard" : "", replica);
        print_marked(state + heard_place(&at, replica), "\n");
    }
}

/* What a change of view has brought: the votes of the replicas, or the replies of the groups. */
static void print_brought(bool votes) {
    for (uint64_t i = 0; i < (votes ? at.n : at.s); i++) {
        const uint8_t *brought = state + (votes ? vote_place(&at, i) : reply_place(&at, i));
        const uint8_t *table = brought + (votes ? VOTE_HEAD_LENGTH : 1);
        uint64_t sync = votes ? load(brought + AT_VOTE_SYNC, 8) : 0;
        if (!reaches((size_t)(table - state) + 4))
            return;
        printf("%-14s %s %ju: ", i != 0 ? "" : votes ? "votes" : "replies", votes ? "replica" : "group", i);
        if (brought[0] == 0) {
            printf(!votes && i == state[AT_GROUP] ? "own group\n" : "not heard\n");
            continue;
        }
        if (votes)
            printf("last normal in %ju, sync point %ju, ", load(brought + AT_VOTE_LAST_NORMAL, 4), sync);
        printf("%ju entries\n", load(table, 4));
        print_entries(table, sync, 0, "                 ");
    }
}

static void print_report(void) {
    print_head();
    if (reaches(at.log + 4))
        printf("%-14s %ju of %ju\n", "log", load(state + at.log, 4), at.c);
    print_entries(state + at.log, load(state + AT_SYNC, 8), load(state + AT_COMMIT, 8), "  ");
    print_table("early", at.early);
    print_table("late", at.late);
    print_notes();
    print_brought(true);
    print_table("draft", at.draft);
    print_brought(false);
    if (reaches(at.length) && given > at.length)
        printf("%-14s %zu bytes that are no part of it\n", "behind it", given - at.length);
}

/* ---- the verdict ------------------------------------------------------------------------------------- */

/* The file's bytes as a state of a shape. */
static uint8_t *fit(const layout *shape, const uint8_t *bytes) {
    uint8_t *fitted = memory(shape->length);
    memcpy(fitted, bytes, given < shape->length ? given : shape->length);
    return fitted;
}

/* Of a file that was cut nothing is told that lies behind its end, or in the entry or field that it ends in. */
static void print_reason(void *told, size_t byte, const char *rule) {
    char room[PLACE_ROOM], end[PLACE_ROOM];
    if (known < at.length && (byte >= known || strcmp(name_place(byte, room), name_place(known, end)) == 0))
        return;
    if ((*(uint64_t *)told)++ < SHOWN_REASONS || show_all)
        printf("  - %s (byte %zu, %s)\n", rule, byte, describe_place(&at, state, byte, room));
}

/* A file of another length than the shape's states have is none of them, whatever stands in it. */
static void print_length(void) {
    char room[PLACE_ROOM];
    if (given < at.length)
        printf("The state is NOT good: the file has %zu of its %zu bytes, and ends in: %s.\nWhat fails of the rules "
               "before the file's end, with zeros for what is missing:\n",
               given, at.length, name_place(given, room));
    else
        printf("The state is NOT good: the file has %zu bytes behind its %zu. What fails of the rules within these:\n",
               given - at.length, at.length);
}

/* Of a file that is as long as a state of this shape. */
static mending put_in_order(const layout *shape, const uint8_t *bytes, __typeof__(jallumere_order) *order) {
    uint8_t *copied = fit(shape, bytes);
    return (mending){copied, order(SIZES(shape), copied, shape->length)};
}

static bool is_mended(mending by) { return by.answer == JALLUMERE_DONE; }

/* Gives the state in order, by the core; what is good stays as it is. */
static mending print_order(bool good) {
    const mending core = put_in_order(&at, state, jallumere_order), model = put_in_order(&at, state, model_order);
    if (!good && is_mended(core))
        printf("Nothing is wrong but the order of its early entries, as a core before interface 2.1 has left it:\n"
               "jallumere_order mends it, and --order FILE writes it in order.\n");
    if (core.answer != model.answer || memcmp(core.bytes, model.bytes, at.length) != 0)
        printf("DISAGREEMENT: the core puts the state in order with answer %ju, the model with %ju, or otherwise.\n",
               core.answer, model.answer);
    free(model.bytes);
    return core;
}

/* Gives the state in order, where the file is a whole one. */
static mending print_verdict(bool good) {
    uint64_t told = 0;
    const bool whole = given == at.length;
    if (!whole)
        print_length();
    else
        printf("%s\n", good ? "The state is good." : "The state is NOT good. What fails of the rules:");
    uint64_t reasons = model_why_not_good(SIZES(&at), state, at.length, print_reason, &told);
    if (!whole && told == 0)
        printf("  nothing\n");
    if (told > SHOWN_REASONS && !show_all)
        printf("  ... and %ju more (--all shows them)\n", told - SHOWN_REASONS);
    if (whole && good != (reasons == 0))
        printf("DISAGREEMENT: the core says that the state is %s, and the model finds %s.\n"
               "The core decides; one of the two is wrong and should be reported.\n",
               good ? "good" : "not good", good ? "the reasons above" : "no reason");
    return whole ? print_order(good) : (mending){NULL, JALLUMERE_WRONG_STATE};
}

/* The state in order, to a file that was not there: what it is made of stays. */
static bool write_ordered(mending by) {
    const char *path = ordered_path;
    if (!is_mended(by)) {
        printf("'%s' is not written: the order of its early entries does not make the state good.\n", path);
        return false;
    }
    FILE *file = fopen(path, "wbx");
    if (file == NULL)
        stop("'%s' is there already, or cannot be written", path);
    if (fwrite(by.bytes, 1, at.length, file) != at.length || fflush(file) != 0 || fsync(fileno(file)) != 0 ||
        fclose(file) != 0)
        stop("'%s' cannot be written", path);
    printf("'%s' has the state with its early entries in order; it is good.\n", path);
    return true;
}

/* ---- the shape --------------------------------------------------------------------------------------- */

/* What is to be said of it, behind the verdict; empty where there is nothing. */
static char about_shape[640];

static void keep_first(void *least, size_t byte, const char *rule) {
    (void)rule;
    if (byte < *(size_t *)least)
        *(size_t *)least = byte;
}

/* For a file that no shape has the length of: the shape in which it is right furthest, of those with a capacity that is
 * a power of 2; of equal ones the shortest that is not shorter than the file. */
static layout nearest_shape(const uint8_t *bytes) {
    layout nearest = {0};
    size_t furthest = 0;
    for (uint64_t n = 3; n <= REPLICAS_MOST; n += 2)
        for (uint64_t s = 1; s <= GROUPS_MOST; s++)
            for (uint64_t c = CAPACITY_LEAST; c <= CAPACITY_MOST; c *= 2) {
                const layout shape = lay_out(n, s, c);
                size_t right = given < shape.length ? given : shape.length;
                uint8_t *fitted = fit(&shape, bytes);
                model_why_not_good(SIZES(&shape), fitted, shape.length, keep_first, &right);
                free(fitted);
                if (nearest.length == 0 || right > furthest || (right == furthest && shape.length < nearest.length)) {
                    furthest = right;
                    nearest = shape;
                }
            }
    snprintf(about_shape, sizeof about_shape,
             "no shape has states of %zu bytes; of the shapes with capacities 16, 32, .. 4096 this is the one\nin "
             "which the file is right furthest. --sites, --groups and --capacity name another\n",
             given);
    return nearest;
}

static bool is_good(const layout *shape, const uint8_t *bytes) {
    return jallumere_good(SIZES(shape), bytes, given) == JALLUMERE_DONE;
}

static bool can_be_mended(const layout *shape, const uint8_t *bytes) {
    const mending by = put_in_order(shape, bytes, jallumere_order);
    free(by.bytes);
    return is_mended(by);
}

/* The first of the shapes with the file's length in which the state is good, or else in which it is once it is in
 * order, or else the first of them. */
static layout fitting_shape(const layout *shapes, size_t found, const uint8_t *bytes) {
    size_t taken = 0, mended = 0, used = 0;
    while (taken < found && !is_good(&shapes[taken], bytes))
        taken++;
    const bool good = taken < found;
    while (!good && mended < found && !can_be_mended(&shapes[mended], bytes))
        mended++;
    taken = good ? taken : mended;
    if (found > 1 && taken < found)
        snprintf(about_shape, sizeof about_shape,
                 "%zu shapes have this length; the first that makes it a good state%s is taken\n", found,
                 good ? "" : ", once it is in order,");
    for (size_t i = 1; i < found && taken == found && used < sizeof about_shape - 100; i++)
        used += (size_t)sprintf(about_shape + used, "%s %ju/%ju/%ju",
                                i == 1 ? "other shapes of this length, in none of which it is good:" : "",
                                SIZES(&shapes[i]));
    if (used != 0)
        sprintf(about_shape + used, " (sites/groups/capacity)\n");
    return shapes[taken < found ? taken : 0];
}

/* Takes the shape that was asked for, or one by the file's length; gives whether the state is good. */
static bool take_shape(const uint8_t *bytes) {
    static layout shapes[SHAPES_MOST];
    size_t found = 0;
    at = lay_out(asked_n, asked_s, asked_c);
    if (asked_n != 0 && at.length == 0)
        stop("no such shape: sites are 3, 5 or 7, groups 1 to 8, capacity 16 to 4096");
    for (uint64_t n = 3; n <= REPLICAS_MOST; n += 2)
        for (uint64_t s = 1; s <= GROUPS_MOST; s++)
            for (uint64_t c = CAPACITY_LEAST; c <= CAPACITY_MOST && found < SHAPES_MOST; c++)
                if (asked_n == 0 && lay_out(n, s, c).length == given)
                    shapes[found++] = lay_out(n, s, c);
    if (asked_n == 0)
        at = found != 0 ? fitting_shape(shapes, found, bytes) : nearest_shape(bytes);
    state = fit(&at, bytes);
    known = given < at.length ? given : at.length;
    return is_good(&at, bytes);
}

/* ---- what is asked ----------------------------------------------------------------------------------- */

static void print_shape(void) { printf("\n%s%s", about_shape, about_shape[0] == 0 ? "" : "\n"); }

static int inspect_state(void) {
    const bool good = take_shape(read_file(state_path, &given));
    const mending by = print_verdict(good);
    const bool done = ordered_path == NULL ? good : write_ordered(by);
    print_shape();
    print_report();
    return done ? 0 : 1;
}

/* The message is read by the state's sizes; a state that is not good refuses every message. */
static int inspect_both(void) {
    size_t length;
    const bool good = take_shape(read_file(state_path, &given));
    const uint8_t *message = read_file(message_path, &length);
    bool taken = good && report_step(&at, state, message, length);
    if (!good) {
        printf("A step of this site refuses the message, and every other, with 1, %s.\n", answer_name(1));
        print_verdict(good);
    }
    asked_n = at.n;
    asked_s = at.s;
    printf("\nThe message by itself:\n\n");
    report_message(message, length);
    printf("\nThe site by itself:\n");
    print_shape();
    print_head();
    return taken ? 0 : 1;
}

static int inspect_message(void) {
    size_t length;
    const uint8_t *message = read_file(message_path, &length);
    return report_message(message, length) ? 0 : 1;
}

int main(int count, char **words) {
    const char *bare = NULL;
    const option options[] = {{"--sites", .number = &asked_n, .least = 3, .most = REPLICAS_MOST},
                              {"--groups", .number = &asked_s, .least = 1, .most = GROUPS_MOST},
                              {"--capacity", .number = &asked_c, .least = CAPACITY_LEAST, .most = CAPACITY_MOST},
                              {"--state", .word = &state_path},
                              {"--message", .word = &message_path},
                              {"--order", .word = &ordered_path},
                              {"--all", .flag = &show_all},
                              {NULL, .flag = NULL}};
    read_words(count, words, options, &bare);
    if (bare != NULL && (state_path != NULL || message_path != NULL))
        stop("a state and a message are --state FILE --message FILE; ./jallumere inspect --help");
    state_path = bare != NULL ? bare : state_path;
    if (state_path == NULL && message_path == NULL)
        stop("which state, or which message? ./jallumere inspect --help");
    if ((asked_n == 0) != (asked_s == 0) || (asked_n == 0 || state_path == NULL) != (asked_c == 0))
        stop("--sites, --groups and, for a state, --capacity go together: give all or none");
    if (asked_n != 0 && asked_n % 2 == 0)
        stop("sites are 3, 5 or 7");
    if (message_path != NULL && ordered_path != NULL)
        stop("--order is for a state alone");
    return state_path == NULL ? inspect_message() : message_path == NULL ? inspect_state() : inspect_both();
}
