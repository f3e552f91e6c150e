/* A message's bytes as a report for people, field by field; and where it is wrong, and why.
 *
 * Whether a message is well formed, and where it is wrong first, is decided by the core (jallumere_read). The words are
 * found here, by a reading of the rules of its own; where the two disagree, the report says so.
 *
 * The fields are gone through twice in wire order: to find what is wrong, which is told first, and to print them. */
#include "report.h"

#define NOWHERE SIZE_MAX

enum { NAME_ROOM = 48, WORDS_ROOM = 200, COUNT_MOST = 16 };

/* The message, the sizes it is read by, its fields as far as they have been read, and of each whole entry of a log the
 * first that has its transaction. What is no kind has no form. */
static const uint8_t *bytes, *entries;
static size_t length, at, *firsts;
static uint64_t n, s;
static message told;
static const form *shape = &forms[0];

/* The field that is read now; whether the message has ended before it; the first wrong one, and why. */
static struct {
    bool prints, marked, ended;
    size_t field, found;
    char name[NAME_ROOM], why[WORDS_ROOM];
} now;

/* ---- fields ------------------------------------------------------------------------------------------ */

/* What the field says. */
__attribute__((format(printf, 1, 2))) static void print_line(const char *format, ...) {
    va_list words;
    if (!now.prints || now.ended)
        return;
    va_start(words, format);
    printf("%8zu  %-26s ", now.field, now.name);
    vprintf(format, words);
    printf("\n");
    va_end(words);
}

/* What it has to satisfy. The first that fails is remembered, and marked under the line of its field. */
__attribute__((format(printf, 2, 3))) static void require(bool holds, const char *format, ...) {
    va_list words;
    if (holds || now.ended)
        return;
    if (now.found == NOWHERE) {
        va_start(words, format);
        vsnprintf(now.why, WORDS_ROOM, format, words);
        va_end(words);
        now.found = now.field;
    }
    if (now.prints && !now.marked && now.found == now.field) {
        printf("%8s  ^ WRONG at byte %zu: %s\n", "", now.found, now.why);
        now.marked = true;
    }
}

/* The next field, as a number; 0 where the message ends before it does, and for all that would follow. */
__attribute__((format(printf, 2, 3))) static uint64_t take(unsigned width, const char *format, ...) {
    const size_t there = length - at;
    va_list words;
    if (now.ended)
        return 0;
    va_start(words, format);
    vsnprintf(now.name, NAME_ROOM, format, words);
    va_end(words);
    now.field = at;
    if (there >= width) {
        at += width;
        return load(bytes + now.field, width);
    }
    if (there != 0)
        print_line("%zu of %u bytes", there, width);
    now.field = at = length;
    require(length != 0, "the message has no bytes");
    require(there == 0, "the message ends here, after %zu of the %u bytes of the %s", there, width, now.name);
    require(false, "the message ends here, before the %s", now.name);
    now.ended = true;
    return 0;
}

/* The numbers in a set, one behind the other. */
static const char *list(uint64_t set, char room[WORDS_ROOM]) {
    int used = sprintf(room, "%s", set == 0 ? "none" : "");
    for (unsigned i = 0; set >> i != 0; i++)
        if (holds(set, i))
            used += sprintf(room + used, "%u%s", i, set >> i == 1 ? "" : ",");
    return room;
}

/* ---- the header, views and numbers -------------------------------------------------------------------- */

/* A group or a replica, which is 255 outside. */
static uint64_t read_place(const char *name, bool outside, uint64_t limit) {
    uint64_t value = take(1, "%s", name);
    print_line("%ju%s", value, value == JALLUMERE_OUTSIDE ? ", outside every group" : "");
    require(!outside || value == JALLUMERE_OUTSIDE, "%ju is not 255, and a %s %s outside every group", value,
            shape->name, shape->path == INBOUND ? "comes from" : "goes");
    require(outside || value < limit, "%ju is out of range 0..%ju", value, limit - 1);
    return value;
}

static void read_header(void) {
    char room[WORDS_ROOM];
    told.kind = take(1, "kind");
    print_line("%ju, %s", told.kind, kind_name(told.kind));
    require(is_kind(told.kind), "there is no kind %ju", told.kind);
    shape = &forms[is_kind(told.kind) ? told.kind : 0];
    const bool in = shape->path == INBOUND, out = shape->path == OUTBOUND;
    told.to_group = read_place("destination group", out, s);
    told.to_mask = take(1, "destination mask");
    print_line("%#jx%s%s", told.to_mask, out ? "" : ": replicas ", out ? "" : list(told.to_mask, room));
    require(!out || told.to_mask == 1, "a %s goes outside every group, and its mask is 1", shape->name);
    require(out || told.to_mask != 0, "the mask is empty");
    require(out || told.to_mask >> n == 0, "the mask names replicas past %ju, the last of %ju", n - 1, n);
    told.from_group = read_place("sender's group", in, s);
    told.from_replica = read_place("sender's replica", in, n);
    told.zeros = take(3, "three zeros");
    print_line("%#jx", told.zeros);
    require(told.zeros == 0, "these three bytes are 0 in every message");
    told.view = take(4, "gView");
    print_line("%ju", told.view);
    require(shape->has_views || told.view == 0, "a %s has gView 0", shape->name);
}

/* Behind a wrong count that is large nothing can be told apart. */
static void pass_count(uint64_t count) {
    if (count > COUNT_MOST && now.prints && !now.ended)
        printf("%8zu  %zu bytes, which cannot be told apart behind such a count\n", at, length - at);
    now.ended = now.ended || count > COUNT_MOST;
}

static void read_views(void) {
    told.view_count = take(4, "gVec's count");
    print_line("%ju", told.view_count);
    require(!shape->has_views || told.view_count == s,
            "the count is %ju, and a %s has a view for each of the %ju groups", told.view_count, shape->name, s);
    require(shape->has_views || told.view_count == 0, "the count is %ju, and a %s has no gVec", told.view_count,
            shape->name);
    pass_count(told.view_count);
    for (uint64_t group = 0; group < told.view_count && !now.ended; group++) {
        uint64_t view = take(4, "view of group %ju", group);
        print_line("%ju, so replica %ju leads", view, view % n);
    }
}

/* What the rules limit; of two that disagree the later is wrong. */
static void check_number(uint64_t i) {
    const uint64_t first = told.numbers[0], second = told.numbers[1];
    if (told.kind == JALLUMERE_TRANSACTION && i == 1) {
        require((first | second) != 0, "send time + bound is 0, and is to be in 1..2^63-1");
        require(first <= GREATEST_TIMESTAMP && second <= GREATEST_TIMESTAMP - first,
                "send time %ju + bound %ju passes 2^63-1", first, second);
    } else if (told.kind == JALLUMERE_FAST_REPLY && i == 0)
        require(first <= 1, "placed is 0 or 1, not %ju", first);
    else if (told.kind == JALLUMERE_FAST_REPLY && i == 1)
        require((first == 0) == (second == 0), "position %ju does not go with placed %ju", second, first);
    else if (told.kind == JALLUMERE_VOTE && i == 0)
        require(first < told.view, "last normal gView %ju is not below gView %ju", first, told.view);
    else if (told.kind == JALLUMERE_TICK)
        require(first <= GREATEST_TIMESTAMP, "time %ju is out of range 0..2^63-1", first);
}

static void read_numbers(void) {
    static const char *const names[KINDS][NUMBERS_MOST] = {
        [JALLUMERE_TRANSACTION] = {"send time", "bound"},
        [JALLUMERE_FAST_REPLY] = {"placed", "position", "digest"},
        [JALLUMERE_SLOW_REPLY] = {"position"},
        [JALLUMERE_VOTE] = {"last normal gView", "sync point"},
        [JALLUMERE_SYNC_STATUS] = {"sync point"},
        [JALLUMERE_COMMIT] = {"commit point"},
        [JALLUMERE_VERIFY_REQUEST] = {"boundary"},
        [JALLUMERE_TICK] = {"time"},
    };
    told.number_count = take(4, "numbers' count");
    print_line("%ju", told.number_count);
    require(told.number_count == shape->numbers, "the count is %ju, and a %s has %u number%s", told.number_count,
            shape->name, shape->numbers, shape->numbers == 1 ? "" : "s");
    pass_count(told.number_count);
    for (uint64_t i = 0; i < told.number_count && !now.ended; i++) {
        bool named = i < shape->numbers;
        uint64_t number = take(8, "%s", named ? names[told.kind][i] : "number");
        print_line(i == 2 ? "%#018jx" : "%ju", number);
        if (named) {
            told.numbers[i] = number;
            check_number(i);
        }
    }
}

/* ---- entries ----------------------------------------------------------------------------------------- */

static const uint8_t *transaction_in(size_t i) { return entries + ENTRY_LENGTH * i + AT_TRANSACTION; }

static int by_transaction(const void *one, const void *other) {
    const size_t places[] = {*(const size_t *)one, *(const size_t *)other};
    int order = memcmp(transaction_in(places[0]), transaction_in(places[1]), TRANSACTION_LENGTH);
    return order != 0 ? order : places[0] < places[1] ? -1 : 1;
}

/* Finds for each of so many entries the first with its transaction: they are put in the order of transactions, where
 * those that are alike stand together, the first before the others. */
static void find_firsts(size_t count) {
    size_t *order = memory(count * sizeof *order), first = 0;
    firsts = memory(count * sizeof *firsts);
    for (size_t i = 0; i < count; i++)
        order[i] = i;
    qsort(order, count, sizeof *order, by_transaction);
    for (size_t i = 0; i < count; i++) {
        if (i == 0 || memcmp(transaction_in(order[i]), transaction_in(first), TRANSACTION_LENGTH) != 0)
            first = order[i];
        firsts[order[i]] = first;
    }
    free(order);
}

static void check_timestamp(uint64_t timestamp) {
    if (told.kind == JALLUMERE_TRANSACTION)
        require(timestamp == 0, "timestamp %ju is not 0, and a transaction has none yet", timestamp);
    else
        require(timestamp - 1 < GREATEST_TIMESTAMP, "timestamp %ju is out of range 1..2^63-1", timestamp);
}

static void check_mask(uint64_t mask) {
    char room[WORDS_ROOM];
    require(mask != 0, "the mask is empty");
    require(mask >> s == 0, "the mask names groups %s past %ju, the last of %ju", list(mask >> s << s, room), s - 1, s);
    require(shape->path == OUTBOUND || holds(mask, told.to_group & 63),
            "the mask lacks group %ju, to which the message is addressed", told.to_group);
}

/* A whole entry of a log, in one line: whether the log is still good with it. */
static void check_in_log(uint64_t i) {
    char room[WORDS_ROOM];
    const entry read = read_entry(bytes + at), before = i == 0 ? (entry){0} : read_entry(bytes + at - ENTRY_LENGTH);
    take(0, "entry %ju", i + 1);
    print_line("at %ju, transaction %ju.%ju, groups %s, command %#018jx", read.timestamp, read.coordinator,
               read.request, list(read.mask, room), read.command);
    check_timestamp(read.timestamp);
    require(read.timestamp >= before.timestamp, "timestamp %ju falls below %ju of entry %ju", read.timestamp,
            before.timestamp, i);
    check_mask(read.mask);
    require(firsts[i] == i, "transaction %ju.%ju stands in entry %zu already", read.coordinator, read.request,
            firsts[i] + 1);
    require(i == 0 || later(key_of(entries + ENTRY_LENGTH * i), last_key(entries, i)),
            "transaction %ju.%ju is not after %ju.%ju of entry %ju, which has the same timestamp", read.coordinator,
            read.request, before.coordinator, before.request, i);
}

/* An entry field by field, which may be cut. */
static void read_fields(uint64_t i) {
    static const char *const names[] = {"", "timestamp", "command", "request", "coordinator", "mask"};
    char room[WORDS_ROOM];
    for (unsigned which = JALLUMERE_ENTRY_TIMESTAMP; which < JALLUMERE_ENTRY_MASK; which++) {
        uint64_t value = take(entry_fields[which].width, "%s of entry %ju", names[which], i + 1);
        print_line(which == JALLUMERE_ENTRY_COMMAND ? "%#018jx" : "%ju", value);
        if (which == JALLUMERE_ENTRY_TIMESTAMP)
            check_timestamp(value);
        require(which != JALLUMERE_ENTRY_REQUEST || value != 0, "request 0 is out of range 1..2^32-1");
        require(which != JALLUMERE_ENTRY_COORDINATOR || value != 65535, "coordinator 65535 is out of range 0..65534");
    }
    uint64_t mask = take(2, "mask of entry %ju", i + 1);
    print_line("%#jx: groups %s", mask, list(mask, room));
    check_mask(mask);
    require(shape->sender != OTHER_LEADER || holds(mask, told.from_group & 63),
            "the mask lacks group %ju, which the message comes from", told.from_group);
}

/* A log's entry is printed in one line where it is whole and none of its fields alone is wrong. */
static void read_one(uint64_t i) {
    const size_t behind = at + ENTRY_LENGTH;
    const bool field_wrong = now.prints && now.found > at && now.found < behind;
    const bool one_line = shape->entries == ANY_LOG && behind <= length && !field_wrong;
    if (one_line)
        check_in_log(i);
    if (one_line && now.prints)
        at = behind;
    else
        read_fields(i);
}

/* Of a long row the ends are printed, and what is near to the place that is wrong. */
static void read_entries(void) {
    told.count = take(4, "entries' count");
    print_line("%ju", told.count);
    require(shape->entries == ANY_LOG || told.count == shape->entries, "the count is %ju, and a %s has %s", told.count,
            shape->name, shape->entries == ONE_ENTRY ? "one entry" : "no entries");
    require(told.kind != JALLUMERE_VOTE || told.numbers[1] <= told.count,
            "sync point %ju lies beyond the %ju entries that are counted", told.numbers[1], told.count);
    const size_t whole = (length - at) / ENTRY_LENGTH, there = told.count < whole ? told.count : whole;
    uint64_t hidden = 0;
    entries = bytes + at;
    if (firsts == NULL)
        find_firsts(there);
    for (uint64_t i = 0; i < told.count && !now.ended; i++) {
        bool near = now.found != NOWHERE && at < now.found + ENTRY_LENGTH && now.found < at + 2 * ENTRY_LENGTH;
        bool end = there <= SHOWN_ENTRIES || i < SHOWN_ENTRIES / 2 || i + SHOWN_ENTRIES / 2 >= there;
        if (now.prints && !show_all && !end && !near) {
            hidden++;
            at += ENTRY_LENGTH;
            continue;
        }
        if (hidden != 0)
            printf("%8s  ... %ju more (--all shows them)\n", "", hidden);
        hidden = 0;
        read_one(i);
    }
}

/* All fields, as far as they go, and what is behind them. */
static void read_all(bool prints) {
    now.prints = prints;
    now.marked = now.ended = false;
    at = 0;
    read_header();
    read_views();
    read_numbers();
    read_entries();
    if (now.ended || at == length)
        return;
    take(0, "behind the end");
    print_line("%zu bytes", length - at);
    require(false, "the message ends before this byte by its counts, and %zu bytes follow%s", length - at,
            jallumere_message_length(n, s, bytes + at, length - at) != 0 ? ", which begin with another message" : "");
}

/* ---- sizes and the verdict ---------------------------------------------------------------------------- */

/* Takes the sizes asked for, or the first in which the message is well formed, or else those in which it is right
 * furthest; gives the core's answer and tells how they were found. */
static uint64_t take_sizes(const char **how) {
    uint64_t taken = 0, formed = 0;
    for (uint64_t sites = 3; sites <= REPLICAS_MOST; sites += 2)
        for (uint64_t groups = 1; groups <= GROUPS_MOST; groups++) {
            if (asked_n != 0 && (sites != asked_n || groups != asked_s))
                continue;
            uint64_t answer = jallumere_read(sites, groups, bytes, length);
            bool good = answer == JALLUMERE_DONE;
            if (formed == 0 && (n == 0 || good || JALLUMERE_OFFSET(answer) > JALLUMERE_OFFSET(taken))) {
                n = sites;
                s = groups;
                taken = answer;
            }
            formed += good;
        }
    *how = asked_n != 0  ? ""
           : formed == 1 ? " (the only sizes in which it is well formed)"
           : formed != 0 ? " (not given: the first sizes in which it is well formed)"
                         : " (not given: the first of those sizes in which it is right furthest)";
    return taken;
}

bool report_message(const uint8_t *given, size_t given_length) {
    const char *how;
    bytes = given;
    length = given_length;
    now.found = NOWHERE;
    uint64_t answer = take_sizes(&how);
    size_t wrong = answer == JALLUMERE_DONE ? NOWHERE : JALLUMERE_OFFSET(answer);
    read_all(false);
    if (wrong == NOWHERE)
        printf("The message is well formed.\n");
    else
        printf("The message is NOT well formed: it is wrong at byte %zu.\n", wrong);
    if (wrong != NOWHERE && now.found == wrong)
        printf("  - %s\n", now.why);
    if (wrong == NOWHERE && shape->path == OUTBOUND)
        printf("A step refuses it, with 2 at byte 0: a %s goes to a coordinator, not to a site.\n", shape->name);
    printf("\n%-14s %ju sites in a group, %ju group%s%s\n%-14s %zu bytes\n\n", "sizes", n, s, s == 1 ? "" : "s", how,
           "length", length);
    read_all(true);
    if (now.found != wrong)
        printf("\nDISAGREEMENT: this report finds %s%s.\nThe core decides; one of the two is wrong and should be "
               "reported.\n",
               now.found == NOWHERE ? "nothing wrong" : "that ", now.found == NOWHERE ? "" : now.why);
    return wrong == NOWHERE;
}
