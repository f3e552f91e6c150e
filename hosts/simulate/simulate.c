/*
 * Groups of sites over a network that loses, repeats and delays, all by a seed: coordinators send transactions,
 * clocks tick, a leader falls silent, a view manager starts new views, the silent site comes back; at last the
 * logs are filled, and a new view lets the last entries commit.
 *
 * Every site is the core alone; this program is its host. It carries messages, sends some of them again, and
 * checks after every step what the core promises (docs/HOSTS.md has the list).
 *
 * ./jallumere simulate --help lists the options and tells the exit status.
 */
#define _POSIX_C_SOURCE 200809L

#include "../common/host.h"
#include "../common/messages.h"
#include "../model/model.h"

/* Times are milliseconds: between two ticks of a site; what coordinators add to the send time; of the network, with the
 * last on top for one message in twenty. */
enum { TICK_TIME = 20, BOUND = 30, DELAY_LEAST = 3, DELAY_MOST = 22, DELAY_SLOW = 45 };

/* Until the manager notices a silent leader; from the coordinators' end until it looks at the full logs; until it gives
 * a view up. */
enum { NOTICE_TIME = 90, SETTLE_TIME = 150, WATCH_TIME = 320 };

/* What the protocol sends once and cannot do without is sent again: so many times, and each time after so long. */
static const struct {
    unsigned times, after;
} resends[KINDS] = {
    [JALLUMERE_TRANSACTION] = {4, 110}, [JALLUMERE_TIMESTAMP_NOTE] = {2, 60}, [JALLUMERE_CHANGE_VIEW] = {2, 60},
    [JALLUMERE_VOTE] = {2, 60},         [JALLUMERE_START_VIEW] = {2, 60},     [JALLUMERE_VERIFY_REQUEST] = {2, 60}};

enum { SITES_MOST = REPLICAS_MOST * GROUPS_MOST, VIEWS_MOST = 256, COORDINATORS = 3, SHOWN_ENTRIES = 4 };
enum { FROM_COORDINATORS = -1, FROM_MANAGER = -2, FROM_CLOCK = -3 };

/* The plot: steps of an act for each site, and when things happen in it, in hundredths. */
enum { STEPS_EACH = 250, FALLS = 20, COMES_BACK = 32, TAKEN_IN = 50, FILLS = 58, ENDS = 85 };

const char program_name[] = "simulate";

static uint64_t seed = 1, sites_each = 3, groups = 1, capacity = 32, loss = 5, repeats = 5, steps_most;
static const char *page_path, *states_path;
static bool quiet;

static const option options[] = {
    {"--seed", .number = &seed, .most = UINT64_MAX},
    {"--sites", .number = &sites_each, .least = 3, .most = REPLICAS_MOST},
    {"--groups", .number = &groups, .least = 1, .most = GROUPS_MOST},
    {"--capacity", .number = &capacity, .least = CAPACITY_LEAST, .most = CAPACITY_MOST},
    {"--loss", .number = &loss, .most = 90},
    {"--repeat", .number = &repeats, .most = 90},
    {"--steps", .number = &steps_most, .least = 1, .most = 10000000},
    {"--page", .word = &page_path},
    {"--states", .word = &states_path},
    {"--quiet", .flag = &quiet},
    {NULL, .flag = NULL},
};

/* ---- what there is ----------------------------------------------------------------------------------- */

/* What a state says, as a host reads it: by the core, in the order of the fields' numbers. */
typedef union {
    struct {
        unsigned group, replica, status, view, last_normal, clock, sync, commit, logged, leader;
    };
    unsigned fields[JALLUMERE_FIELD_LEADER];
} standing;

typedef struct {
    uint8_t *state;
    standing was, is;         /* before and after its last step */
    bool leads, silent, full; /* full: a tick has been refused with 8 */
    unsigned skew;            /* its clock is this much ahead */
} site;

/* A message that was sent; what it says points into its bytes. */
typedef struct letter {
    uint8_t *bytes;
    size_t length, number;
    message told;
    int from;            /* a site's place, or one of FROM_ */
    unsigned status;     /* that the site had then */
    unsigned placed;     /* of a transaction: the replicas that have answered so, as a mask */
    struct letter *last; /* of a transaction: the one sent before it */
} letter;

typedef struct event {
    unsigned at, sent_at;
    void (*happen)(const struct event *);
    site *to; /* NULL for a coordinator */
    letter *sent;
    unsigned view;
    bool again;
} event;

static layout at;
static site sites[SITES_MOST], *sites_end = sites;
static event *events; /* the next one last */
static letter *asked; /* the last transaction */
static size_t letter_count, event_count, event_room, outgoing_room;
static uint8_t *before, *ordered, *outgoing, *outgoing_before;
static unsigned now, step_count, lost_count, again_count, sent_counts[KINDS], answers[ANSWERS];

/* How far the plot has come, and what the view manager has planned last. */
static enum { CALM, SILENCE, RETURN, REUNITED, FILLING, STOPPED } scene;
static unsigned act, acts, planned_view;
static uint8_t planned_views[4 * GROUPS_MOST];

static site *site_of(uint64_t group, uint64_t replica) { return &sites[group * at.n + replica]; }

/* The site that leads a group in the planned view. */
static site *planned_leader(uint64_t group) { return site_of(group, leader_of(planned_views, group, at.n)); }

static int place_of(const site *own) { return own == NULL ? -1 : (int)(own - sites); }

static bool is_answered(const letter *transaction) {
    return (unsigned)__builtin_popcount(transaction->placed) >= majority_of(at.n);
}

/* Of events at the same time the one that was planned first comes first. */
static void plan(event made) {
    size_t place = event_count++;
    if (event_count > event_room)
        events = enlarged(events, (event_room = 2 * event_count) * sizeof *events);
    for (; place > 0 && events[place - 1].at <= made.at; place--)
        events[place] = events[place - 1];
    events[place] = made;
}

/* ---- the page, rows of some lists, and the timeline, both written as things happen -------------------- */

/* What stands in page.html above and below the rows, page_head and page_tail; made by the build. Page.html tells what
 * each row means. */
#include "page.h"

static FILE *page_file; /* NULL where no page is asked for */

#define PUT(...) (void)(page_file != NULL && fprintf(page_file, __VA_ARGS__))

static void put_entries(const uint8_t *entries, uint64_t first, uint64_t count) {
    for (uint64_t i = first; i < count; i++) {
        entry read = read_entry(entries + ENTRY_LENGTH * i);
        PUT("%s[%ju,%ju,%ju,%ju]", i == first ? "" : ",", read.timestamp, read.coordinator, read.request, read.mask);
    }
    PUT("]],\n");
}

enum fate { ARRIVED, LOST, UNHEARD };

/* One way of one letter to one site; the answer is -1 where there is none. */
static void put_way(const event *of, enum fate fate, int answer) {
    PUT("[\"x\",%zu,%d,%u,%u,%d,%d,%d],\n", of->sent->number, place_of(of->to), of->sent_at, of->at, fate, of->again,
        answer);
}

/* What befalls a site. */
static void put_event(const site *of, const char *what) { PUT("[\"v\",%u,%d,\"%s\"],\n", now, place_of(of), what); }

/* One line of the timeline, of a site or of none. */
__attribute__((format(printf, 2, 3))) static void note(const site *of, const char *format, ...) {
    char text[256], name[16] = "";
    va_list words;
    va_start(words, format);
    vsnprintf(text, sizeof text, format, words);
    va_end(words);
    PUT("[\"e\",%u,%d,\"%s\"],\n", now, place_of(of), text);
    if (of != NULL)
        snprintf(name, sizeof name, "g%u.r%u", of->is.group, of->is.replica);
    if (!quiet)
        printf("%6u ms  %-5s  %s\n", now, name, text);
}

static void end_page(const char *failed);

/* The page is ended too: it shows what went before. */
__attribute__((format(printf, 2, 3))) _Noreturn static void fails(const site *of, const char *format, ...) {
    char text[512];
    size_t used = 0;
    va_list words;
    if (of != NULL)
        used = (size_t)sprintf(text, "site g%d.r%d: ", place_of(of) / (int)at.n, place_of(of) % (int)at.n);
    va_start(words, format);
    vsnprintf(text + used, sizeof text - used, format, words);
    va_end(words);
    fflush(stdout);
    fprintf(stderr, "simulate: A PROMISE FAILED at step %u, %u ms, %s\nsimulate: again by", step_count, now, text);
    for (const option *each = options; each->number != NULL; each++)
        fprintf(stderr, " %s %ju", each->name, *each->number);
    fprintf(stderr, "\n");
    PUT("[\"e\",%u,-1,\"A PROMISE FAILED: %s\"],\n", now, text);
    end_page(text);
    exit(1);
}

/* The words are looked at only where the promise does not hold. */
#define PROMISE(held, ...) ((held) ? (void)0 : fails(__VA_ARGS__))

/* ---- the network ------------------------------------------------------------------------------------- */

static void deliver(const event *of);

/* Keeps what is sent, and shows it on the page with the last of its entries. */
static letter *keep_letter(const uint8_t *bytes, size_t length, int from) {
    letter *kept = memory(sizeof *kept);
    const message *told = &kept->told;
    *kept = (letter){.bytes = memory(length), .length = length, .number = letter_count++, .from = from};
    kept->status = from < 0 ? 0 : sites[from].is.status;
    memcpy(kept->bytes, bytes, length);
    PROMISE(take_apart(kept->bytes, length, &kept->told), from < 0 ? NULL : &sites[from],
            "a message of kind %u has other counts than its length", bytes[0]);
    sent_counts[told->kind]++;
    PUT("[\"m\",%ju,%d,%ju,[", told->kind, from, told->view);
    for (uint64_t i = 0; i < told->number_count; i++)
        PUT("%s\"%ju\"", i == 0 ? "" : ",", told->numbers[i]);
    PUT("],[");
    for (uint64_t i = 0; i < told->view_count; i++)
        PUT("%s%ju", i == 0 ? "" : ",", load(told->views + 4 * i, 4));
    PUT("],%ju,[", told->count);
    put_entries(told->entries, told->count > SHOWN_ENTRIES ? told->count - SHOWN_ENTRIES : 0, told->count);
    return kept;
}

/* To every site that the header names, or to the coordinator, for which its mask has one bit. A way may be lost, and
 * what is sent first may go twice. */
static void send_out(letter *sent, bool again) {
    uint64_t group = sent->told.to_group;
    for (uint64_t replica = 0; replica < at.n; replica++) {
        event way = {.happen = deliver, .sent = sent, .sent_at = now, .again = again};
        way.to = group == JALLUMERE_OUTSIDE ? NULL : site_of(group, replica);
        for (bool goes = holds(sent->told.to_mask, replica); goes; way.again = true) {
            way.at = now + DELAY_LEAST + (unsigned)below(DELAY_MOST - DELAY_LEAST);
            way.at += below(20) == 0 ? (unsigned)below(DELAY_SLOW) : 0;
            bool lost = chance(loss);
            lost_count += lost;
            if (lost)
                put_way(&way, LOST, -1);
            else
                plan(way);
            goes = !way.again && chance(repeats);
            again_count += goes;
        }
    }
}

/* A site sends again while in its view and status of then, the manager in its last view, a coordinator till answered.
 */
static void send_again(const event *of) {
    const letter *sent = of->sent;
    const site *own = sent->from < 0 ? NULL : &sites[sent->from];
    bool by_site = own != NULL && !own->silent && own->is.view == sent->told.view && own->is.status == sent->status;
    bool by_manager = sent->from == FROM_MANAGER && sent->told.view == planned_view;
    if (by_site || by_manager || (sent->from == FROM_COORDINATORS && !is_answered(sent) && scene != STOPPED))
        send_out(of->sent, true);
}

static void send_first(letter *sent) {
    send_out(sent, false);
    for (unsigned i = 1; i <= resends[sent->told.kind].times; i++)
        plan((event){.at = now + i * resends[sent->told.kind].after, .happen = send_again, .sent = sent});
}

/* A message from outside to some replicas of a group, written by the core's writer. */
static letter *write_letter(const message *made, uint64_t group, uint64_t mask, int from) {
    uint8_t bytes[256];
    uint64_t answer =
        jallumere_write(at.n, at.s, made->kind, group, mask, JALLUMERE_OUTSIDE, JALLUMERE_OUTSIDE, made->view,
                        made->numbers, forms[made->kind].numbers, made->views, 4 * made->view_count, made->entries,
                        ENTRY_LENGTH * made->count, bytes, sizeof bytes);
    PROMISE(JALLUMERE_NUMBER(answer) == JALLUMERE_DONE, NULL, "the writer refuses a kind %ju with %u, offset %zu",
            made->kind, JALLUMERE_NUMBER(answer), JALLUMERE_OFFSET(answer));
    return keep_letter(bytes, JALLUMERE_LENGTH(answer), from);
}

/* ---- what is promised -------------------------------------------------------------------------------- */

/* What is known of a view in a group: its leader's log, as far as it has come, and how much of it all logs have had
 * with which a site was in status 1 there; with more groups the draft that was rebuilt for it; the view that its votes
 * were of, and how much of it one of them had synced; the greatest commit point held. */
typedef struct {
    uint8_t *log, *rebuilt; /* tables; NULL before there is one */
    unsigned held, base, prefix, committed;
} history;

static history histories[GROUPS_MOST][VIEWS_MOST];
static unsigned checks_made, merges_against, committed_most[GROUPS_MOST];

/* Whether two tables have so many entries and begin with the same. */
static bool begin_alike(const uint8_t *table, const uint8_t *other, uint64_t count) {
    return count == 0 || (table != NULL && load(table, 4) >= count && load(other, 4) >= count &&
                          memcmp(table + 4, other + 4, ENTRY_LENGTH * count) == 0);
}

/* How many entries, of so many at most, two tables begin with alike. */
static unsigned count_alike(const uint8_t *table, const uint8_t *other, unsigned most) {
    unsigned alike = 0;
    while (alike < most && memcmp(table + entry_place(alike), other + entry_place(alike), ENTRY_LENGTH) == 0)
        alike++;
    return alike;
}

/* The entry of a transaction, or NULL. */
static const uint8_t *find_entry(const uint8_t *entries, uint64_t count, uint64_t transaction) {
    for (const uint8_t *one = entries; one < entries + ENTRY_LENGTH * count; one += ENTRY_LENGTH)
        if (key_of(one).transaction == transaction)
            return one;
    return NULL;
}

static bool has_key(const uint8_t *entries, uint64_t count, key wanted) {
    const uint8_t *found = find_entry(entries, count, wanted.transaction);
    return found != NULL && load(found, 8) == wanted.timestamp;
}

/* Logs rise strictly by timestamp, coordinator, request, and so does early, which lies after the log's last. */
static void check_order(const site *own) {
    const uint8_t *log = own->state + at.log + 4, *early = own->state + at.early + 4;
    for (uint64_t i = 1; i <= own->is.logged; i++)
        PROMISE(later(last_key(log, i), last_key(log, i - 1)), own,
                "its entry %ju is not after the one before it, by timestamp, coordinator, request", i);
    for (uint64_t i = 1; i <= load(early - 4, 4); i++) {
        PROMISE(later(last_key(early, i), last_key(log, own->is.logged)), own,
                "its early entry %ju does not lie after its log's last", i);
        PROMISE(later(last_key(early, i), last_key(early, i - 1)), own,
                "its early entry %ju is not after the one before it, by timestamp, coordinator, request", i);
    }
}

static bool is_ordered(const site *own) {
    return jallumere_order(SIZES(&at), ordered, at.length) == JALLUMERE_DONE &&
           memcmp(ordered, own->state, at.length) == 0;
}

/* What orders a state leaves it as it is; with early the other way round the state is not good, and comes back. */
static void check_ordering(const site *own) {
    const uint64_t early = load(own->state + at.early, 4);
    memcpy(ordered, own->state, at.length);
    PROMISE(is_ordered(own), own, "its state does not stay as it is when it is ordered");
    for (uint64_t i = 0; i < early; i++)
        memcpy(ordered + at.early + entry_place(i), own->state + at.early + entry_place(early - 1 - i), ENTRY_LENGTH);
    PROMISE(early < 2 || jallumere_good(SIZES(&at), ordered, at.length) == JALLUMERE_WRONG_STATE, own,
            "its state is good with its early entries the other way round");
    PROMISE(is_ordered(own), own, "its state does not come back when its early entries are ordered");
}

/* A transaction that is due after the log's last is early at its time. What is not is late at a follower, and a leader
 * gives it the time after the last one's. The leader's note is looked at, for agreement may lift its entry at once. */
static void check_placed(const site *own, const message *told) {
    const key asked = {told->numbers[0] + told->numbers[1], key_of(told->entries).transaction},
              last = last_key(before + at.log + 4, load(before + at.log, 4));
    const bool follows = later(asked, last);
    const uint8_t *table = own->state + (own->leads || follows ? at.early : at.late);
    const uint8_t *found = find_entry(table + 4, load(table, 4), asked.transaction), *notes = own->state + at.notes;
    PROMISE(found != NULL, own, "a transaction due at %ju, which is%s after its log's last, is not in %s",
            asked.timestamp, follows ? "" : " not", own->leads || follows ? "early" : "late");
    uint64_t given = own->leads ? 0 : load(found, 8);
    for (uint64_t i = 0; own->leads && i < load(notes, 4); i++)
        if (transaction_at(own->state + note_place(&at, i)) == asked.transaction)
            given = load(own->state + note_place(&at, i) + note_group(own->is.group) + 1, 8);
    PROMISE(given == (own->leads && !follows ? last.timestamp + 1 : asked.timestamp), own,
            "a transaction due at %ju got %ju behind an entry at %ju", asked.timestamp, given, last.timestamp);
}

/* A verify reply tells all that touches the asker at its boundary or past it. */
static void check_told(const site *own, const message *request, const message *reply) {
    const uint8_t *from = own->state + (own->is.status == JALLUMERE_STATUS_CROSS_SHARD ? at.draft : at.log);
    uint64_t wanted = 0;
    for (uint64_t i = 0; i < load(from, 4); i++) {
        const uint8_t *bytes = from + entry_place(i);
        if (load(bytes, 8) < request->numbers[0] || !holds(read_entry(bytes).mask, request->from_group))
            continue;
        wanted++;
        PROMISE(has_key(reply->entries, reply->count, key_of(bytes)), own,
                "its verify reply lacks its entry %ju, at %ju, and was asked from %ju on", i + 1, load(bytes, 8),
                request->numbers[0]);
    }
    PROMISE(reply->count == wanted, own, "its verify reply has %ju entries in place of %ju", reply->count, wanted);
}

/* The votes that a step with the last of them rebuilt from, as messages; where there is none it has no kind. */
static void gather_votes(const site *own, const message *told, message votes[REPLICAS_MOST]) {
    const bool same = own->was.view == own->is.view;
    for (uint64_t i = 0; i < at.n; i++) {
        const uint8_t *kept = before + vote_place(&at, i), *table = before + (same ? vote_table(&at, i) : at.log);
        bool there = same ? kept[0] == 1 : i == own->is.replica;
        votes[i] = (message){.kind = there ? JALLUMERE_VOTE : 0, .entries = table + 4, .count = load(table, 4)};
        votes[i].numbers[0] = same ? load(kept + AT_VOTE_LAST_NORMAL, 4) : own->was.last_normal;
        votes[i].numbers[1] = same ? load(kept + AT_VOTE_SYNC, 8) : own->was.sync;
        if (i == told->from_replica)
            votes[i] = *told;
    }
}

static unsigned holders_of(const message *votes, const message *best, key wanted) {
    unsigned holders = 0;
    for (uint64_t i = 0; i < at.n; i++)
        holders += votes[i].kind != 0 && votes[i].numbers[0] == best->numbers[0] &&
                   has_key(votes[i].entries, votes[i].count, wanted);
    return holders;
}

/* Of the votes that count, those of the greatest last normal view, one gives what is synced; what enough of them hold
 * that is later than its last entry is not lost. */
static void check_recovered(const site *own, const message *told, const uint8_t *rebuilt, history *view) {
    message votes[REPLICAS_MOST];
    const message *best = NULL;
    gather_votes(own, told, votes);
    for (const message *one = votes; one < votes + at.n; one++)
        if (one->kind != 0 && (best == NULL || one->numbers[0] > best->numbers[0] ||
                               (one->numbers[0] == best->numbers[0] && one->numbers[1] > best->numbers[1])))
            best = one;
    view->base = (unsigned)best->numbers[0];
    view->prefix = (unsigned)best->numbers[1];
    PROMISE(load(rebuilt, 4) >= view->prefix && memcmp(rebuilt + 4, best->entries, ENTRY_LENGTH * view->prefix) == 0,
            own, "its rebuilt log does not begin with the %u entries that a vote had synced", view->prefix);
    for (uint64_t i = 0; i < at.n * at.c; i++) {
        const message *one = &votes[i / at.c];
        if (one->kind == 0 || i % at.c >= one->count || one->numbers[0] != best->numbers[0])
            continue;
        key held = key_of(one->entries + ENTRY_LENGTH * (i % at.c));
        bool wanted = later(held, last_key(best->entries, view->prefix)) &&
                      find_entry(best->entries, view->prefix, held.transaction) == NULL &&
                      holders_of(votes, best, held) >= recovery_of(at.n);
        PROMISE(!wanted || has_key(rebuilt + 4, load(rebuilt, 4), held), own,
                "its rebuilt log has lost transaction %ju.%ju at %ju, which %u votes hold", held.transaction >> 32,
                held.transaction & UINT32_MAX, held.timestamp, holders_of(votes, best, held));
    }
}

/* Of the replies that a step with the last of them merged: whether one speaks against what was synced, by a greater
 * timestamp for a transaction there or by another entry that is not later than its last. */
static bool told_against(const message *told, const uint8_t *synced, uint64_t count) {
    for (uint64_t i = 0; i < at.s * at.c; i++) {
        const uint8_t *kept = before + reply_place(&at, i / at.c), *table = before + reply_table(&at, i / at.c);
        bool last = i / at.c == told->from_group;
        const uint8_t *one = (last ? told->entries : table + 4) + ENTRY_LENGTH * (i % at.c);
        if ((!last && kept[0] == 0) || i % at.c >= (last ? told->count : load(table, 4)))
            continue;
        const uint8_t *own = find_entry(synced, count, key_of(one).transaction);
        if (own != NULL ? load(one, 8) > load(own, 8) : !later(key_of(one), last_key(synced, count)))
            return true;
    }
    return false;
}

/* With more groups a view starts with what was synced, where no reply speaks against it. */
static void check_merged(const site *own, const message *told) {
    const history *view = &histories[own->is.group][own->is.view];
    PROMISE(view->rebuilt != NULL && told->kind == JALLUMERE_VERIFY_REPLY, own,
            "it starts view %u without the other groups' replies", own->is.view);
    if (told_against(told, view->rebuilt + 4, view->prefix)) {
        merges_against++;
        return;
    }
    checks_made++;
    PROMISE(begin_alike(view->rebuilt, own->state + at.log, view->prefix), own,
            "view %u does not start with the %u entries that were synced, and no reply speaks against them",
            own->is.view, view->prefix);
}

/* What was committed in a view stands at the same positions in later ones, whichever came first: with one group in each
 * log with which a site was in status 1 in any of them; with more in each draft rebuilt from votes of that view. */
static void check_kept(const site *own, unsigned base) {
    const history *views = histories[own->is.group], *with = &views[base];
    for (unsigned view = base + 1; view <= planned_view; view++) {
        const history *then = &views[view];
        const uint8_t *log = groups == 1 ? then->log : then->rebuilt;
        if (log == NULL || (groups != 1 && then->base != base))
            continue;
        checks_made++;
        unsigned most = groups == 1 ? then->held : (unsigned)load(log, 4);
        unsigned kept = count_alike(with->log, log, most < with->committed ? most : with->committed);
        PROMISE(kept == with->committed, own,
                "the entry committed at position %u in view %u does not stand there in %s view %u", kept + 1, base,
                groups == 1 ? "a log that a site had in" : "the log rebuilt for", view);
    }
}

static void check_earlier(const site *own) {
    for (unsigned base = 0; base < own->is.view; base++)
        check_kept(own, base);
}

static void keep_rebuilt(const site *own, const message *told) {
    history *view = &histories[own->is.group][own->is.view];
    view->rebuilt = memcpy(memory(at.table), own->state + at.draft, at.table);
    if (told->kind == JALLUMERE_VOTE)
        check_recovered(own, told, view->rebuilt, view);
    check_earlier(own);
}

static unsigned reached_by(unsigned group, unsigned point) {
    unsigned reached = 0;
    for (uint64_t replica = 0; replica < at.n; replica++)
        reached += site_of(group, replica)->is.sync >= point;
    return reached;
}

/* A leader's log against what is known of the view that it leads; the first view is made of nothing. */
static void check_leader(const site *own, const message *told, history *view) {
    const uint8_t *log = own->state + at.log;
    const bool starts = view->log == NULL;
    if (starts) {
        view->log = memory(at.table);
        view->held = own->is.logged;
    }
    PROMISE(begin_alike(view->log, log, load(view->log, 4)), own, "the leader's log of view %u did not only grow",
            own->is.view);
    write_table(view->log, log + 4, own->is.logged);
    if (!starts || own->is.view == 0)
        return;
    if (groups != 1) {
        check_merged(own, told);
        return;
    }
    check_earlier(own);
    if (told->kind == JALLUMERE_VOTE)
        check_recovered(own, told, log, view);
}

/* A site's log, sync point and commit point against what is known of the view that it was normal in last. */
static void check_points(const site *own, const message *told) {
    const standing *is = &own->is;
    const uint8_t *log = own->state + at.log;
    const bool serves = is->status == JALLUMERE_STATUS_NORMAL;
    const unsigned last = serves ? is->view : is->last_normal;
    PROMISE(site_of(is->group, is->replica) == own && is->view <= planned_view && is->last_normal <= is->view, own,
            "it takes itself for g%u.r%u in view %u, normal last in %u", is->group, is->replica, is->view,
            is->last_normal);
    history *view = &histories[is->group][last];
    checks_made += 2;
    if (serves && own->leads)
        check_leader(own, told, view);
    PROMISE(view->log != NULL && begin_alike(view->log, log, is->sync), own,
            "its log up to the sync point %u is not the leader's of view %u", is->sync, last);
    PROMISE(reached_by(is->group, is->commit) >= majority_of(at.n), own,
            "its commit point %u has been reached by %u of %ju sites alone", is->commit,
            reached_by(is->group, is->commit), at.n);
    if (serves && groups == 1 && !begin_alike(view->log, log, view->held)) {
        view->held = count_alike(view->log, log, view->held < is->logged ? view->held : is->logged);
        check_earlier(own);
    }
    if (is->commit > view->committed) {
        view->committed = is->commit;
        committed_most[is->group] = is->commit > committed_most[is->group] ? is->commit : committed_most[is->group];
        check_kept(own, last);
    }
}

/* ---- a step ------------------------------------------------------------------------------------------ */

/* A reply's entry is the one at its position; a fast one's digest is that of the log so far, not placed of all of it.
 */
static void check_reply(const site *own, const message *reply) {
    const uint8_t *log = own->state + at.log + 4;
    bool fast = reply->kind == JALLUMERE_FAST_REPLY, placed = !fast || reply->numbers[0] == 1;
    uint64_t position = placed ? reply->numbers[fast ? 1 : 0] : own->is.logged;
    size_t length = ENTRY_LENGTH * (size_t)position;
    PROMISE(position <= own->is.logged && (!placed || position != 0) &&
                (!placed || memcmp(log + length - ENTRY_LENGTH, reply->entries, ENTRY_LENGTH) == 0),
            own, "a reply is for position %ju, where its log has another entry", position);
    PROMISE(!fast || (reply->numbers[2] == model_digest(JALLUMERE_DIGEST_START, log, length) &&
                      reply->numbers[2] == jallumere_digest(JALLUMERE_DIGEST_START, log, length)),
            own, "a fast reply's digest is not that of its log up to position %ju", position);
}

static void take_outgoing(const site *own, const message *taken, size_t length) {
    for (size_t reach = 0, first; reach < length; reach += first) {
        first = (size_t)jallumere_message_length(at.n, at.s, outgoing + reach, length - reach);
        PROMISE(first != 0, own, "the outgoing bytes are no row of messages from byte %zu on", reach);
        uint64_t read = jallumere_read(at.n, at.s, outgoing + reach, first);
        PROMISE(read == JALLUMERE_DONE, own, "it sent a message of kind %u that is not well formed at byte %zu",
                outgoing[reach], JALLUMERE_OFFSET(read));
        letter *sent = keep_letter(outgoing + reach, first, place_of(own));
        const message *told = &sent->told;
        PROMISE(told->from_group == own->is.group && told->from_replica == own->is.replica, own,
                "it sent a message in another's name");
        if (told->kind == JALLUMERE_FAST_REPLY || told->kind == JALLUMERE_SLOW_REPLY)
            check_reply(own, told);
        if (told->kind == JALLUMERE_VERIFY_REPLY)
            check_told(own, taken, told);
        send_first(sent);
    }
}

/* Whether its last step made a draft; it may have had one of an older view. */
static bool has_rebuilt(const site *own) {
    return own->is.status == JALLUMERE_STATUS_CROSS_SHARD &&
           (own->was.status != JALLUMERE_STATUS_CROSS_SHARD || own->was.view != own->is.view);
}

/* What a reader of the timeline wants to know of a step that was done. */
static void tell(const site *own, const message *told) {
    const standing *was = &own->was, *is = &own->is;
    bool started = is->last_normal != was->last_normal;
    if (is->view != was->view && !started)
        note(own, "enters view %u%s", is->view, own->leads ? " as its leader" : ", votes");
    if (has_rebuilt(own))
        note(own, "has %ju votes, drafts %ju entries, asks the other groups from %ju on", majority_of(at.n),
             load(own->state + at.draft, 4), load(own->state + AT_BOUNDARY, 8));
    if (started && own->leads)
        note(own, "STARTS view %u with %u entries, %u of them committed", is->view, is->logged, is->commit);
    else if (started)
        note(own, "follows in view %u with %u entries", is->view, is->logged);
    else if (told->kind == JALLUMERE_TICK && own->leads && is->logged != was->logged)
        note(own, "releases %u, its log has %u", is->logged - was->logged, is->logged);
    else if (told->kind == JALLUMERE_VERIFY_REPLY || told->kind == JALLUMERE_VERIFY_REQUEST)
        note(own, "takes a %s of group %ju", kind_name(told->kind), told->from_group);
    else if (told->kind == JALLUMERE_VOTE)
        note(own, "takes the vote of replica %ju", told->from_replica);
    else if (told->kind == JALLUMERE_SYNC_STATUS && is->commit != was->commit)
        note(own, "commits up to %u, reached by %u of %ju sites", is->commit, reached_by(is->group, is->commit), at.n);
}

static void check_refusal(site *own, const message *told, uint64_t answer) {
    bool tick = told->kind == JALLUMERE_TICK;
    unsigned refusal = JALLUMERE_NUMBER(answer);
    PROMISE(refusal != JALLUMERE_WRONG_STATE && refusal != JALLUMERE_MALFORMED && refusal != JALLUMERE_NO_ROOM, own,
            "refusal %u (%s) for a kind %ju, offset %zu", refusal, answer_name(refusal), told->kind,
            JALLUMERE_OFFSET(answer));
    PROMISE(memcmp(before, own->state, at.length) == 0, own, "a refusal changed its state");
    if (refusal != JALLUMERE_FULL)
        return;
    PROMISE(!tick || load(own->state + at.log, 4) == at.c, own, "refusal 8 for a tick, with room in its log");
    if (!tick)
        note(own, "has no room for what a %s brings: refusal 8", kind_name(told->kind));
    else if (!own->full)
        note(own, "is FULL: its log has %u entries, %u of them committed, and one more is due: refusal 8",
             own->is.logged, own->is.commit);
    own->full = own->full || tick;
}

/* Reads the state as a host does, by the core; and checks the core's readers by the model's, past the last too. */
static void check_done(site *own, const message *told) {
    own->was = own->is;
    PROMISE(jallumere_good(SIZES(&at), own->state, at.length) == 0, own, "its state is not good after a kind %ju",
            told->kind);
    for (uint64_t field = 1; field <= JALLUMERE_FIELD_LEADER + 1; field++) {
        uint64_t says = jallumere_field(SIZES(&at), field, own->state, at.length);
        PROMISE(says == model_field(SIZES(&at), field, own->state, at.length), own,
                "the reader of field %ju does not say what stands in its state", field);
        if (field <= JALLUMERE_FIELD_LEADER)
            own->is.fields[field - 1] = (unsigned)says;
    }
    own->leads = own->is.leader == own->is.replica;
    check_order(own);
    check_ordering(own);
    check_points(own, told);
    if (told->kind == JALLUMERE_TRANSACTION)
        check_placed(own, told);
    if (has_rebuilt(own))
        keep_rebuilt(own, told);
    tell(own, told);
}

static unsigned take_step(site *own, const letter *taken) {
    const standing *is = &own->is;
    memcpy(before, own->state, at.length);
    memcpy(outgoing, outgoing_before, outgoing_room);
    uint64_t answer =
        jallumere_step(SIZES(&at), own->state, at.length, taken->bytes, taken->length, outgoing, outgoing_room);
    unsigned refusal = JALLUMERE_NUMBER(answer);
    size_t length = JALLUMERE_LENGTH(answer);
    step_count++;
    PROMISE(refusal < ANSWERS && answer_fits(answer, outgoing_room, taken->length), own, "the step answers %ju",
            answer);
    PROMISE(memcmp(outgoing + length, outgoing_before + length, outgoing_room - length) == 0, own,
            "the step wrote past what it sends");
    answers[refusal]++;
    if (refusal == JALLUMERE_DONE)
        check_done(own, &taken->told);
    else
        check_refusal(own, &taken->told, answer);
    PUT("[\"p\",%u,%d,%zu,%u,%u,%u,%u,%u,%u,%ju,%ju,%d,%zu],\n", now, place_of(own), taken->number, refusal, is->status,
        is->view, is->logged, is->sync, is->commit, load(own->state + at.early, 4), load(own->state + at.late, 4),
        own->leads, length);
    take_outgoing(own, &taken->told, length);
    return refusal;
}

/* ---- coordinators, clocks and the view manager ------------------------------------------------------- */

static unsigned transaction_count, asked_of[GROUPS_MOST]; /* transactions sent to each group */

/* The groups that may still be asked; before the logs are filled a quarter of each is kept free. */
static uint64_t open_groups(void) {
    uint64_t open = 0;
    for (uint64_t group = 0; group < at.s && scene != STOPPED; group++)
        if (scene == FILLING ? !planned_leader(group)->full : asked_of[group] < 3 * at.c / 4)
            open |= bit(group);
    return open;
}

/* Now and then two are sent in one millisecond, and are due at the same time. */
static void submit(const event *of) {
    static unsigned last[COORDINATORS];
    uint8_t written[ENTRY_LENGTH];
    char named[4 * GROUPS_MOST] = "";
    const message made = {JALLUMERE_TRANSACTION, .numbers = {now, BOUND}, .entries = written, .count = 1};
    entry sent = {.command = draw() >> 32, .coordinator = below(COORDINATORS)};
    uint64_t mask = 1 + below(bit(at.s) - 1);
    if (groups > 2 && below(3) != 0) /* mostly in one group or two */
        mask = bit(below(at.s)) | bit(below(at.s));
    sent.mask = mask & open_groups();
    const uint64_t pause = below(3) == 0 ? 0 : scene == FILLING ? 1 + below(16 / at.s) : 30 + below(60);
    plan((event){.at = now + (unsigned)pause, .happen = of->happen});
    if (sent.mask == 0)
        return;
    transaction_count++;
    sent.request = ++last[sent.coordinator];
    write_entry(written, sent);
    for (unsigned group = 0; group < at.s; group++)
        if (holds(sent.mask, group)) {
            letter *asks = write_letter(&made, group, bit(at.n) - 1, FROM_COORDINATORS);
            snprintf(named + strlen(named), sizeof named - strlen(named), " %u", group);
            asked_of[group]++;
            asks->last = asked;
            asked = asks;
            send_first(asks);
        }
    note(NULL, "coordinator %ju sends transaction %ju.%ju to group%s, due at %u", sent.coordinator, sent.coordinator,
         sent.request, named, now + BOUND);
}

static void tick(const event *of) {
    const message made = {JALLUMERE_TICK, .numbers = {now + of->to->skew}};
    plan((event){.at = now + TICK_TIME, .happen = tick, .to = of->to});
    if (!of->to->silent)
        take_step(of->to, write_letter(&made, of->to->is.group, bit(of->to->is.replica), FROM_CLOCK));
}

/* Whether a majority of each group has started the planned view. */
static bool view_stands(void) {
    unsigned started[GROUPS_MOST] = {0};
    for (const site *each = sites; each < sites_end; each++)
        started[each->is.group] +=
            each->is.status == JALLUMERE_STATUS_NORMAL && each->is.view == planned_view && !each->silent;
    for (uint64_t group = 0; group < at.s; group++)
        if (started[group] < majority_of(at.n))
            return false;
    return true;
}

/* A greater view for every group, led by the lowest site that is not silent; and another, if it does not stand. */
static void plan_view(const event *of) {
    bool again = of->view != 0;
    if (planned_view + 1 >= VIEWS_MOST || (again && (of->view != planned_view || view_stands())))
        return;
    if (again)
        note(NULL, "view %u has not come to stand", planned_view);
    planned_view++;
    for (uint64_t group = 0; group < at.s; group++) {
        uint64_t old = load(planned_views + 4 * group, 4), leader = 0;
        while (leader + 1 < at.n && site_of(group, leader)->silent)
            leader++;
        store(planned_views + 4 * group, (old / at.n + 1) * at.n + leader, 4);
    }
    note(NULL, "the view manager plans view %u, leader of group 0 is replica %ju", planned_view,
         leader_of(planned_views, 0, at.n));
    const message made = {JALLUMERE_CHANGE_VIEW, .view = planned_view, .views = planned_views, .view_count = at.s};
    for (uint64_t group = 0; group < at.s; group++)
        send_first(write_letter(&made, group, bit(at.n) - 1, FROM_MANAGER));
    plan((event){.at = now + WATCH_TIME, .happen = plan_view, .view = planned_view});
}

/* While ticks are refused no follower tells its sync point; a new view lets the last entries commit. */
static void settle(const event *of) {
    for (uint64_t group = 0; group < at.s; group++) {
        const standing *is = &planned_leader(group)->is;
        if (planned_leader(group)->full)
            note(NULL, "group %u has %u of %u entries committed; no sync status goes out, the last %u wait for a view",
                 is->group, is->commit, is->logged, is->logged - is->commit);
    }
    if (answers[JALLUMERE_FULL] != 0)
        plan_view(of);
}

/* In each act a leader falls silent, comes back and is taken in again; in the last the logs are filled then. */
static void follow_plot(void) {
    static site *fallen;
    unsigned length = (unsigned)steps_most / acts, share = 100 * (step_count % length) / length;
    if (scene == REUNITED && step_count / length > act) {
        act = step_count / length;
        scene = CALM;
    }
    if (scene == CALM && share >= FALLS) {
        fallen = planned_leader(below(at.s));
        fallen->silent = true;
        put_event(fallen, "silent");
        note(fallen, "FALLS SILENT, the leader of group %u", fallen->is.group);
        plan((event){.at = now + NOTICE_TIME, .happen = plan_view});
        scene = SILENCE;
    } else if (scene == SILENCE && share >= COMES_BACK) {
        fallen->silent = false;
        put_event(fallen, "back");
        note(fallen, "COMES BACK with the state that it had");
        scene = RETURN;
    } else if (scene == RETURN && share >= TAKEN_IN) {
        note(NULL, "a view is planned to take the site in again");
        plan_view(&(event){.view = 0});
        scene = REUNITED;
    } else if (scene == REUNITED && act + 1 == acts && share >= FILLS) {
        note(NULL, "the coordinators hurry, until the logs are full");
        scene = FILLING;
    } else if (scene == FILLING && (share >= ENDS || open_groups() == 0)) {
        note(NULL, "the coordinators stop");
        plan((event){.at = now + SETTLE_TIME, .happen = settle});
        scene = STOPPED;
    }
}

/* A site takes a step; a coordinator hears a slow reply, or a fast one of the leader that has placed the transaction.
 */
static void deliver(const event *of) {
    const message *told = &of->sent->told;
    if (of->to != NULL) {
        bool silent = of->to->silent;
        put_way(of, silent ? UNHEARD : ARRIVED, silent ? -1 : (int)take_step(of->to, of->sent));
        return;
    }
    bool leads = told->from_replica == leader_of(told->views, told->from_group, at.n);
    bool placed = told->kind == JALLUMERE_SLOW_REPLY || (leads && told->numbers[0] == 1);
    for (letter *each = asked; each != NULL && placed; each = each->last)
        if (each->told.to_group == told->from_group &&
            memcmp(each->told.entries + AT_TRANSACTION, told->entries + AT_TRANSACTION, TRANSACTION_LENGTH) == 0)
            each->placed |= 1u << told->from_replica;
    put_way(of, ARRIVED, 0);
}

/* ---- the end ----------------------------------------------------------------------------------------- */

/* The names that the page goes by, so that it says what the programs say. */
static void put_names(void) {
    PUT("\"kinds\":{");
    for (unsigned kind = 0, named = 0; kind < KINDS; kind++)
        if (is_kind(kind))
            PUT("%s\"%u\":\"%s\"", named++ == 0 ? "" : ",", kind, kind_name(kind));
    PUT("},\"answers\":[");
    for (unsigned i = 0; i < ANSWERS; i++)
        PUT("%s\"%s\"", i == 0 ? "" : ",", answer_name(i));
    PUT("],");
}

static unsigned count_unanswered(void) {
    unsigned unanswered = 0;
    for (const letter *each = asked; each != NULL; each = each->last)
        unanswered += !is_answered(each);
    return unanswered;
}

static unsigned count_committed(void) {
    unsigned committed = 0;
    for (uint64_t group = 0; group < at.s; group++)
        committed += committed_most[group];
    return committed;
}

/* The rest of the page: what is still on its way, the logs, and what the whole run was; the promise that failed, or
 * NULL. */
static void end_page(const char *failed) {
    if (page_file == NULL)
        return;
    for (size_t i = 0; i < event_count; i++)
        if (events[i].happen == deliver)
            put_way(&events[i], ARRIVED, -1);
    for (const site *each = sites; each < sites_end; each++) {
        PUT("[\"g\",%d,%u,%u,%d,%u,%u,[", place_of(each), each->is.status, each->is.view, each->leads, each->is.sync,
            each->is.commit);
        put_entries(each->state + at.log + 4, 0, each->is.logged);
    }
    PUT("{\"n\":%ju,\"s\":%ju,\"c\":%ju,\"seed\":%ju,\"loss\":%ju,\"steps\":%u,\"end\":%u,", SIZES(&at), seed, loss,
        step_count, now);
    PUT("\"model\":%ju,\"transactions\":%u,\"unanswered\":%u,\"messages\":%zu,\"lost\":%u,\"again\":%u,",
        jallumere_is_model(), transaction_count, count_unanswered(), letter_count - sent_counts[JALLUMERE_TICK],
        lost_count, again_count);
    PUT("\"committed\":%u,\"checks\":%u,\"good\":%u,\"against\":%u,", count_committed(), checks_made,
        answers[JALLUMERE_DONE], merges_against);
    put_names();
    PUT("\"failed\":\"%s\"}]\n%s", failed == NULL ? "" : failed, page_tail);
    if (ferror(page_file) != 0 || fclose(page_file) != 0)
        stop("'%s' cannot be written", page_path);
    printf("\nthe run as a page: %s\n", page_path);
}

static void write_states(void) {
    for (const site *each = sites; each < sites_end; each++) {
        char path[4096];
        snprintf(path, sizeof path, "%s/g%u.r%u.state", states_path, each->is.group, each->is.replica);
        FILE *to = fopen(path, "wb");
        if (to == NULL || fwrite(each->state, 1, at.length, to) != at.length || fclose(to) != 0)
            stop("'%s' cannot be written", path);
    }
    printf("\nthe last states: %s/gN.rN.state\n", states_path);
}

static void print_log(const site *own) {
    static const unsigned fields[] = {JALLUMERE_ENTRY_COORDINATOR, JALLUMERE_ENTRY_REQUEST, JALLUMERE_ENTRY_TIMESTAMP};
    const standing *is = &own->is;
    printf("g%u.r%u %s, %s in view %u%s; log %u, sync %u, commit %u\n   ", is->group, is->replica,
           own->leads ? "leader" : "follower", status_name(is->status), is->view, own->silent ? ", silent" : "",
           is->logged, is->sync, is->commit);
    for (unsigned position = 0; position <= is->logged; position++) {
        for (unsigned i = 0; i < 3 && position != 0; i++)
            printf("%c%ju", " .@"[i], jallumere_entry(SIZES(&at), position, fields[i], own->state, at.length));
        printf("%s%s", position == is->commit ? " |" : "", position == is->sync && is->sync != is->commit ? " /" : "");
    }
    printf("\n");
}

static void print_summary(void) {
    puts("\nThe logs at the end: transaction@timestamp; | is the commit point, / the sync point where it is another");
    for (const site *each = sites; each < sites_end; each++)
        print_log(each);
    printf("\n%u steps in %u ms; %u transactions, %u not answered by a group; %zu messages sent, %u ways lost, "
           "%u repeated; %u views after the first; %u entries committed\nanswers:",
           step_count, now, transaction_count, count_unanswered(), letter_count - sent_counts[JALLUMERE_TICK],
           lost_count, again_count, planned_view, count_committed());
    for (unsigned i = 0; i < ANSWERS; i++)
        if (answers[i] != 0)
            printf(" %u (%s) %u;", i, answer_name(i), answers[i]);
    printf("\nsent:");
    for (unsigned kind = 0; kind < KINDS; kind++)
        if (sent_counts[kind] != 0)
            printf(" %s %u;", kind_name(kind), sent_counts[kind]);
    if (answers[JALLUMERE_FULL] != 0)
        printf("\nRefusal 8: a log was full. With one entry due every tick is then refused and no sync status goes\n"
               "out, so the last entries stay uncommitted until the next view.%s",
               groups == 1 ? ""
                           : " With several groups that view may never\nstand: what a verify reply adds to a full "
                             "draft has no room, which is refusal 8 again, in every view.");
    printf(
        "\nEvery promise held: %u checks of logs and commit points, %u states good, every message sent well formed.\n",
        checks_made, answers[JALLUMERE_DONE]);
    if (merges_against != 0)
        printf("%u view%s started after a verify reply that speaks against what was synced; of positions after such a\n"
               "merge nothing is promised.\n",
               merges_against, merges_against == 1 ? "" : "s");
}

/* ---- the beginning ----------------------------------------------------------------------------------- */

static void start_all(void) {
    unsigned usual = (unsigned)(STEPS_EACH * sites_each * groups);
    steps_most = steps_most == 0 ? usual : steps_most;
    acts = steps_most < usual ? 1 : (unsigned)steps_most / usual;
    at = lay_out(sites_each, groups, capacity);
    seed_chance(seed * UINT64_C(0x2545f4914f6cdd1d) + 1);
    if (jallumere_version() != JALLUMERE_VERSION)
        stop("the core's interface has version %ju, the header %u", jallumere_version(), JALLUMERE_VERSION);
    PROMISE(jallumere_state_length(SIZES(&at)) == at.length, NULL,
            "the core says %ju bytes for a state, the documents %zu", jallumere_state_length(SIZES(&at)), at.length);
    outgoing_room = ample_room(&at);
    before = memory(at.length);
    ordered = memory(at.length);
    outgoing = memory(outgoing_room);
    outgoing_before = memset(memory(outgoing_room), 0xa5, outgoing_room);
    for (; sites_end < site_of(at.s, 0); sites_end++) {
        site *own = sites_end;
        own->skew = (unsigned)below(4);
        own->state = memset(memory(at.length), 0xa5, at.length);
        PROMISE(jallumere_start(SIZES(&at), (own - sites) / at.n, (own - sites) % at.n, own->state, at.length) == 0,
                own, "it cannot be started");
        check_done(own, &(message){0});
        plan((event){.at = 1 + (unsigned)below(TICK_TIME), .happen = tick, .to = own});
    }
    plan((event){.at = 5, .happen = submit});
}

int main(int count, char **words) {
    read_words(count, words, options, NULL);
    if (sites_each % 2 == 0)
        stop("--sites takes 3, 5 or 7");
    if (page_path != NULL && (page_file = fopen(page_path, "w")) == NULL)
        stop("'%s' cannot be written", page_path);
    PUT("%s", page_head);
    if (jallumere_is_model() != 0)
        printf("This runs on the C model of hosts/model, not on the proved core.\n");
    start_all();
    printf("%ju group%s of %ju sites, capacity %ju, seed %ju, %ju of 100 messages lost, %ju repeated, %ju steps\n\n",
           groups, groups == 1 ? "" : "s", sites_each, capacity, seed, loss, repeats, steps_most);
    while (step_count < steps_most) {
        event next = events[--event_count];
        now = next.at;
        next.happen(&next);
        follow_plot();
        if (quiet || isatty(1) == 0)
            show_progress(step_count, steps_most, "steps");
    }
    print_summary();
    if (states_path != NULL)
        write_states();
    end_page(NULL);
    return 0;
}
