/* A message against a state: what a step would answer and send, and by which rule, in words.
 *
 * The answer is the core's (jallumere_step, on a copy). The words are found here, by a reading of the rules of its own:
 * refusals 3 to 6 by the table of kinds (forms), 7 and 8 by what each kind is about; where the two disagree, the report
 * says so. */
#include "report.h"

enum { LIST_ROOM = 112, WHY_ROOM = 160 };

static const layout *at;
static const uint8_t *state;
static message told;
static const form *shape;

/* The site's own numbers. */
static struct {
    uint64_t group, replica, status, view, sync, commit, logged;
    bool leads;
} own;

static void read_own(void) {
    own.group = state[AT_GROUP];
    own.replica = state[AT_REPLICA];
    own.status = state[AT_STATUS];
    own.view = load(state + AT_VIEW, 4);
    own.sync = load(state + AT_SYNC, 8);
    own.commit = load(state + AT_COMMIT, 8);
    own.logged = load(state + at->log, 4);
    own.leads = state_leads(at, state);
}

/* The numbers in a set, one behind the other. */
static const char *list(uint64_t set, char room[LIST_ROOM]) {
    int used = sprintf(room, "%s", set == 0 ? "none" : "");
    for (unsigned i = 0; set >> i != 0 && used < LIST_ROOM - 8; i++)
        if (holds(set, i))
            used += sprintf(room + used, "%u%s", i, set >> i == 1 ? "" : ", ");
    return room;
}

static const char *list_views(const uint8_t *views, char room[LIST_ROOM]) {
    int used = 0;
    for (uint64_t group = 0; group < at->s && used < LIST_ROOM - 14; group++)
        used += sprintf(room + used, "%s%ju", group == 0 ? "" : ", ", load(views + 4 * group, 4));
    return room;
}

/* ---- refusals 3 to 6, by the table of kinds ------------------------------------------------------------ */

static bool same_vector(void) { return memcmp(told.views, state + at->views, 4 * (size_t)at->s) == 0; }

static bool view_fits(void) {
    const bool greater = told.view > own.view, same = told.view == own.view && told.view_count != 0 && same_vector();
    return shape->views == 0 || (greater && (shape->views & GREATER_VIEW)) || (same && (shape->views & SAME_VIEW));
}

/* Whether sender and receiver are those that the kind has, by the message's gVec; where not, why, in words. */
static bool role_fits(char why[WHY_ROOM]) {
    if (shape->sender == NOBODY)
        return true;
    const uint64_t leader = leader_of(told.views, own.group, at->n);
    const uint64_t other = leader_of(told.views, told.from_group, at->n);
    const bool from_own = told.from_group == own.group;
    if (shape->sender == OWN_LEADER && leader == own.replica)
        return !snprintf(why, WHY_ROOM, "is for followers; by its gVec this site leads group %ju", own.group);
    if (shape->sender != OWN_LEADER && leader != own.replica)
        return !snprintf(why, WHY_ROOM,
                         "is for the leader of group %ju, by its gVec replica %ju; this site is replica %ju", own.group,
                         leader, own.replica);
    if (from_own != (shape->sender != OTHER_LEADER))
        return !snprintf(why, WHY_ROOM,
                         "comes from %s group; this one comes from group %ju, and the site is of group %ju",
                         from_own ? "another" : "the site's own", told.from_group, own.group);
    if (shape->sender == OTHER_REPLICA && told.from_replica == own.replica)
        return !snprintf(why, WHY_ROOM, "comes from another replica; this one comes in the site's own name");
    if (shape->sender != OTHER_REPLICA && other != told.from_replica)
        return !snprintf(why, WHY_ROOM,
                         "comes from the leader of group %ju, by its gVec replica %ju; this one is from %ju",
                         told.from_group, other, told.from_replica);
    return true;
}

/* The first of them that applies, or 0. */
static unsigned refused_by_table(char why[WHY_ROOM]) {
    if (told.to_group != own.group || !holds(told.to_mask, own.replica))
        return JALLUMERE_NOT_ADDRESSED_HERE;
    if (!view_fits())
        return JALLUMERE_WRONG_VIEW;
    if (told.view <= own.view && !holds(shape->statuses, own.status))
        return JALLUMERE_WRONG_STATUS;
    return role_fits(why) ? 0 : JALLUMERE_WRONG_ROLE;
}

static void tell_address(void) {
    char room[LIST_ROOM];
    printf("  - it is for group %ju, replicas %s; this site is group %ju, replica %ju\n", told.to_group,
           list(told.to_mask, room), own.group, own.replica);
}

static void tell_view(void) {
    static const char *const taken[] = {[SAME_VIEW] = "in the site's own view alone",
                                        [GREATER_VIEW] = "where its view is greater than the site's",
                                        [EITHER_VIEW] = "in the site's own view or a greater one"};
    char room[LIST_ROOM], others[LIST_ROOM];
    printf("  - a %s is taken %s: ", shape->name, taken[shape->views & EITHER_VIEW]);
    if (told.view != own.view || shape->views == GREATER_VIEW)
        printf("this one is of gView %ju, and the site is in %ju\n", told.view, own.view);
    else
        printf("this one is of the same gView %ju, but its gVec is %s, and the site's is %s\n", told.view,
               list_views(told.views, room), list_views(state + at->views, others));
}

static void tell_status(void) {
    printf("  - a %s%s is taken only in status", shape->name, shape->views == 0 ? "" : " of the site's own view");
    for (unsigned status = 1, before = 0; shape->statuses >> status != 0; status++)
        if (holds(shape->statuses, status))
            printf("%s %u, %s", before++ == 0 ? "" : ", or", status, status_name(status));
    printf("; the site is in %ju, %s\n", own.status, status_name(own.status));
}

/* ---- refusal 7 ----------------------------------------------------------------------------------------- */

/* The position of the message's transaction in a table, from 1, or 0. */
static uint64_t position_in(size_t table) {
    for (uint64_t i = 0; i < load(state + table, 4); i++)
        if (key_of(state + table + entry_place(i)).transaction == key_of(told.entries).transaction)
            return i + 1;
    return 0;
}

static bool tell_known(const char *name, size_t table) {
    const entry asked = read_entry(told.entries);
    const uint64_t position = position_in(table);
    if (position != 0)
        printf("  - transaction %ju.%ju is known: it is entry %ju of %s\n", asked.coordinator, asked.request, position,
               name);
    return position != 0;
}

static void tell_noted(void) {
    for (uint64_t i = 0; i < load(state + at->notes, 4); i++) {
        const uint8_t *note = state + note_place(at, i), *marked = note + note_group(told.from_group);
        if (transaction_at(note) == key_of(told.entries).transaction && marked[0] == 1)
            printf("  - group %ju's timestamp for it is held already: %ju\n", told.from_group, load(marked + 1, 8));
    }
}

static void tell_point(void) {
    const uint64_t point = told.numbers[0];
    const uint8_t *heard = state + heard_place(at, told.from_replica);
    const bool report = told.kind == JALLUMERE_SYNC_STATUS;
    if (report && point > own.logged)
        printf("  - its sync point %ju lies beyond the %ju entries of the site's log\n", point, own.logged);
    else if (report)
        printf("  - its sync point %ju is not above %ju, which was heard from replica %ju before\n", point,
               load(heard + 1, 8), told.from_replica);
    else if (point <= own.commit)
        printf("  - its commit point %ju is not above the site's, %ju\n", point, own.commit);
    else
        printf("  - its commit point %ju lies beyond the site's sync point %ju\n", point, own.sync);
}

static void tell_nothing_new(void) {
    switch (told.kind) {
    case JALLUMERE_TRANSACTION:
        (void)(tell_known("the log", at->log) || tell_known("early", at->early) || tell_known("late", at->late));
        break;
    case JALLUMERE_TIMESTAMP_NOTE:
        if (!tell_known("the log", at->log))
            tell_noted();
        break;
    case JALLUMERE_REPLICA_SYNC:
        printf("  - its log ends at position %ju, and the site has synced up to %ju already\n", told.count, own.sync);
        break;
    case JALLUMERE_SYNC_STATUS:
    case JALLUMERE_COMMIT:
        tell_point();
        break;
    case JALLUMERE_VOTE:
        printf("  - the vote of replica %ju is held already\n", told.from_replica);
        break;
    case JALLUMERE_VERIFY_REPLY:
        printf("  - the reply of group %ju is held already\n", told.from_group);
        break;
    case JALLUMERE_TICK:
        printf("  - its time %ju is below the site's clock, %ju\n", told.numbers[0], load(state + AT_CLOCK, 8));
        break;
    default:
        printf("  - it brings nothing that the site has not\n");
    }
}

/* ---- refusal 8 ----------------------------------------------------------------------------------------- */

static void tell_full_table(const char *name, size_t table, const char *more) {
    if (load(state + table, 4) == at->c)
        printf("  - %s has %ju entries, which is the capacity, and %s\n", name, at->c, more);
}

static bool is_noted(void) {
    for (uint64_t i = 0; i < load(state + at->notes, 4); i++)
        if (transaction_at(state + note_place(at, i)) == key_of(told.entries).transaction)
            return true;
    return false;
}

/* A transaction goes to early, or at a follower where it is not due after the log's last to late; a leader notes it. */
static void tell_no_place(void) {
    const key asked = {told.numbers[0] + told.numbers[1], key_of(told.entries).transaction};
    const key last = last_key(state + at->log + 4, own.logged);
    const bool early = own.leads || later(asked, last);
    tell_full_table(early ? "early" : "late", early ? at->early : at->late, "this would be one more");
    if (own.leads && !is_noted())
        tell_full_table("notes", at->notes, "this would be one more");
    if (own.leads && !later(asked, last) && last.timestamp == GREATEST_TIMESTAMP)
        printf("  - the log ends at timestamp 2^63-1, and no later one is left\n");
}

static void tell_no_room(void) {
    if (shape->entries == ANY_LOG && told.count > at->c) {
        printf("  - its log has %ju entries, and the capacity is %ju\n", told.count, at->c);
        return;
    }
    switch (told.kind) {
    case JALLUMERE_TRANSACTION:
        tell_no_place();
        break;
    case JALLUMERE_TIMESTAMP_NOTE:
        tell_full_table("notes", at->notes, "this would be one more");
        break;
    case JALLUMERE_REPLICA_SYNC:
        printf("  - late would pass the capacity, %ju, with what early loses to it\n", at->c);
        break;
    case JALLUMERE_VOTE:
        printf("  - the log rebuilt from this vote and those that are held would pass the capacity, %ju\n", at->c);
        break;
    case JALLUMERE_VERIFY_REPLY:
        printf("  - the draft merged with the replies would pass the capacity, %ju\n", at->c);
        break;
    default:
        tell_full_table("the log", at->log, "by this time another is due");
    }
}

/* ---- a step that is done ------------------------------------------------------------------------------- */

static void tell_sent(const uint8_t *out, size_t length) {
    char room[LIST_ROOM];
    printf("  - it sends %s\n", length == 0 ? "nothing" : "");
    for (size_t reach = 0, first; reach < length; reach += first) {
        first = (size_t)jallumere_message_length(at->n, at->s, out + reach, length - reach);
        if (first == 0)
            return;
        printf("      a %s of %zu bytes to ", kind_name(out[reach]), first);
        if (out[reach + 1] == JALLUMERE_OUTSIDE)
            printf("the coordinator\n");
        else
            printf("group %u, replicas %s\n", out[reach + 1], list(out[reach + 2], room));
    }
}

static void tell_change(const char *name, uint64_t before, uint64_t after) {
    if (before != after)
        printf("  - %s: %ju before, %ju after\n", name, before, after);
}

static void tell_done(const uint8_t *after, const uint8_t *out, size_t length) {
    for (const field_place *field = head_fields; field < head_fields + HEAD_FIELDS; field++)
        tell_change(field->name, load(state + field->at, field->width), load(after + field->at, field->width));
    tell_change("entries in the log", own.logged, load(after + at->log, 4));
    tell_change("entries in early", load(state + at->early, 4), load(after + at->early, 4));
    tell_change("entries in late", load(state + at->late, 4), load(after + at->late, 4));
    tell_change("notes", load(state + at->notes, 4), load(after + at->notes, 4));
    tell_change("entries in the draft", load(state + at->draft, 4), load(after + at->draft, 4));
    if (memcmp(state, after, at->length) == 0)
        printf("  - the state stays as it is\n");
    tell_sent(out, length);
}

/* ---- the report ---------------------------------------------------------------------------------------- */

static void tell_why(unsigned refusal) {
    char why[WHY_ROOM] = "";
    const unsigned found = refused_by_table(why);
    const bool by_table = refusal >= JALLUMERE_NOT_ADDRESSED_HERE && refusal <= JALLUMERE_WRONG_ROLE;
    if (found != (by_table ? refusal : 0))
        printf("DISAGREEMENT: this report finds %u, %s, in the table of kinds.\nThe core decides; one of the two "
               "is wrong and should be reported.\n",
               found, answer_name(found));
    else if (refusal == JALLUMERE_NOT_ADDRESSED_HERE)
        tell_address();
    else if (refusal == JALLUMERE_WRONG_VIEW)
        tell_view();
    else if (refusal == JALLUMERE_WRONG_STATUS)
        tell_status();
    else if (refusal == JALLUMERE_WRONG_ROLE)
        printf("  - a %s %s\n", shape->name, why);
    else if (refusal == JALLUMERE_NOTHING_TO_DO)
        tell_nothing_new();
    else if (refusal == JALLUMERE_FULL)
        tell_no_room();
}

bool report_step(const layout *given_layout, const uint8_t *given_state, const uint8_t *given, size_t length) {
    at = given_layout;
    state = given_state;
    read_own();
    const size_t room = ample_room(at);
    uint8_t *after = memory(at->length), *out = memory(room);
    memcpy(after, state, at->length);
    const uint64_t answer = jallumere_step(SIZES(at), after, at->length, given, length, out, room);
    const unsigned number = JALLUMERE_NUMBER(answer);
    if (number == JALLUMERE_DONE)
        printf("A step of this site takes the message: 0, done.\n");
    else if (number == JALLUMERE_MALFORMED)
        printf("A step of this site refuses the message with 2, malformed at byte %zu.\n", JALLUMERE_OFFSET(answer));
    else
        printf("A step of this site refuses the message with %u, %s.\n", number, answer_name(number));
    if (number != JALLUMERE_MALFORMED && take_apart(given, length, &told)) {
        shape = &forms[told.kind];
        tell_why(number);
        if (number == JALLUMERE_DONE)
            tell_done(after, out, JALLUMERE_LENGTH(answer));
    }
    free(after);
    free(out);
    return number == JALLUMERE_DONE;
}
