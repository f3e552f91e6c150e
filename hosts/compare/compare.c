/* Drives the core and the model side by side: see both.h for what is compared.
 *
 * Three sources of input. Runs: whole groups over a network that loses, repeats and delays. Built states:
 * good states of every status with tables from empty to full, and messages made to fit them. Damage: of
 * messages and of states, bit by bit and field by field; a state that is still good after an edit goes on
 * in the run, so that states come up which no run from fresh would reach. At capacities 16, 17, 256 and 4,096 and
 * in several shapes each kind has its share of steps that are done, however the rest falls out.
 *
 * compare [--steps N] [--seed N], or compare --traces FILE, which takes recorded steps with their answers instead:
 * 0 if there is no difference; else 1, and the first difference is printed; 2 for bad usage. */
#include "make.h"

const char program_name[] = "compare";

enum { POOL = 3000, STATE_ROOM = 1 << 22 };

static uint64_t steps_wanted = 100000;
static uint8_t spare_state[STATE_ROOM], built_state[STATE_ROOM];

/* ---- one message at one replica, in every variation -------------------------------------------------- */

/* The writer, by the fields of a message that is there: as they are, and with one of them edited. */
static void try_writing(letter told) {
    message made;
    if (!take_apart(told.bytes, told.length, &made))
        return;
    for (uint64_t i = made.number_count; i < NUMBERS_MOST; i++)
        made.numbers[i] = draw(); /* for a count that is edited */
    size_t views_length = 4 * made.view_count, entries_length = ENTRY_LENGTH * made.count;
    uint64_t *const wide[] = {&made.kind,         &made.to_group, &made.to_mask,    &made.from_group,
                              &made.from_replica, &made.view,     &made.numbers[0], &made.numbers[1]};
    uint64_t edited = chance(50) ? 1 + below(11) : 0;
    if (edited > 3)
        *wide[edited - 4] = chance(30) ? below(10) : edge();
    else if (edited == 3)
        made.number_count = below(NUMBERS_MOST + 1);
    else if (edited == 2)
        views_length = chance(50) ? below(views_length + 1) : views_length + 1 + below(3); /* the numbers' count */
    else if (edited == 1)
        entries_length = below(entries_length + 1);
    uint64_t answer = try_write(&made, views_length, entries_length, told.length + below(40));
    bool same = JALLUMERE_LENGTH(answer) == told.length && memcmp(out_of[1], told.bytes, told.length) == 0;
    if (edited == 0 && try_read(told) == JALLUMERE_DONE && !same)
        end_with_difference("write", "a message that reads well is not written as it stands", told.bytes, told.length);
    const size_t rooms[] = {told.length, told.length - 1, below(told.length)};
    for (unsigned i = 0; i < 3 && JALLUMERE_NUMBER(answer) == JALLUMERE_DONE; i++)
        try_write(&made, views_length, entries_length, rooms[i]);
}

/* Wrong sizes, and states of a wrong length. */
static void try_wrong_sizes(const uint8_t *state, letter told) {
    const layout right = at;
    uint64_t *const sizes[] = {&at.n, &at.s, &at.c}, which = below(4);
    if (which < 3)
        *sizes[which] = chance(50) ? below(11) : chance(30) ? *sizes[which] + 1 : edge();
    else
        at.length = chance(50) ? at.length - 1 : below(at.length);
    AGREE(state_length, NULL, 0, SIZES(&at));
    if (memcmp(&at, &right, sizeof at) != 0) {
        try_start(below(right.s), below(right.n));
        try_good(state, WRONG_SIZES);
        try_order(state, WRONG_SIZES);
        try_state_readers(state);
        try_step(state, told, ample_room(&right), WRONG_SIZES);
        try_read(told);
        try_writing(told);
    }
    at = right;
    try_start(below(at.s + 2), chance(80) ? below(at.n + 1) : edge());
}

static void try_damage(const uint8_t *state, letter told) {
    static uint8_t room[LETTER_ROOM];
    letter odd = {room, told.length};
    copy(room, told.bytes, told.length);
    if (chance(40)) {
        for (uint64_t i = chance(80) ? 1 : 2; i > 0; i--)
            damage_message(&odd);
        try_read(odd);
        try_step(state, odd, ample_room(&at), DAMAGED_MESSAGE);
        try_writing(odd);
    } else {
        memcpy(spare_state, state, at.length);
        damage_state(spare_state);
        try_good(spare_state, DAMAGED_STATE);
        if (chance(40))
            try_order(spare_state, DAMAGED_STATE);
        try_step(spare_state, odd, ample_room(&at), DAMAGED_STATE);
    }
}

/* A good state as an older core may have left it: refused as it is, and the good one again once it is ordered. Now and
 * then it is damaged as well; and what is good is ordered too. */
static void try_disorder(const uint8_t *state, letter told, enum origin from) {
    uint64_t early = load(state + at.early, 4);
    if (model_good(SIZES(&at), state, at.length) != JALLUMERE_DONE)
        return;
    if (early < 2 || chance(20))
        try_order(state, from);
    if (early < 2)
        return;
    memcpy(spare_state, state, at.length);
    disorder(spare_state + at.early + 4, early);
    bool same = memcmp(spare_state, state, at.length) == 0;
    if (try_good(spare_state, UNORDERED) != same)
        end_with_difference("good", "a state is good whose early is out of order", spare_state, at.length);
    uint64_t answer = try_order(spare_state, UNORDERED);
    if (answer != JALLUMERE_DONE || memcmp(state_of[1], state, at.length) != 0)
        end_with_difference("order", "the good state does not come back", spare_state, at.length);
    try_step(spare_state, told, ample_room(&at), UNORDERED);
    if (chance(30)) {
        damage_state(spare_state);
        try_order(spare_state, DAMAGED_STATE);
    }
}

/* A message is taken, and all that is tried with it besides: where it is done, once more with a buffer that is just
 * long enough, one byte short, and anything between. Gives the answer, and leaves what the sides were left with by
 * it. */
static uint64_t try_all(const uint8_t *state, letter told, enum origin from) {
    show_progress(steps_done, steps_wanted, "steps");
    if (chance(25))
        try_damage(state, told);
    if (chance(8))
        try_disorder(state, told, from);
    if (chance(3))
        try_wrong_sizes(state, told);
    if (chance(10)) {
        try_read(told);
        try_writing(told);
        uint64_t start = chance(50) ? JALLUMERE_DIGEST_START : draw(), length = below(told.length + 1);
        AGREE(digest, told.bytes, length, start, told.bytes, length);
        digests++;
    }
    uint64_t answer = try_step(state, told, ample_room(&at), from), sent = JALLUMERE_LENGTH(answer);
    const size_t rooms[] = {sent, sent - 1, chance(50) ? 0 : below(sent), ample_room(&at)};
    if (JALLUMERE_NUMBER(answer) == JALLUMERE_DONE && chance(26))
        for (unsigned i = 0; i < 4; i++)
            if (sent != 0 || i % 3 == 0)
                try_step(state, told, rooms[i], from);
    return answer;
}

/* Edits a state and keeps the edit if the state is good after it. */
static bool make_odd(uint8_t *state) {
    memcpy(spare_state, state, at.length);
    damage_state(spare_state);
    bool good = try_good(spare_state, FROM_EDIT);
    if (good)
        memcpy(state, spare_state, at.length);
    return good;
}

/* ---- runs of whole groups ---------------------------------------------------------------------------- */

static struct {
    uint8_t *states, views[4 * GROUPS_MOST];
    struct {
        letter told;
        uint64_t to; /* group * n + replica */
    } pool[POOL];
    size_t waiting;
    uint64_t time, view, requests, loss, repeat, odd;
    enum origin from;
} net;

/* A full pool loses one that waits. */
static void post(letter told, uint64_t to) {
    size_t place = net.waiting < POOL ? net.waiting++ : (size_t)below(POOL);
    free(net.pool[place].told.bytes);
    net.pool[place].told = copy_of(told.bytes, told.length);
    net.pool[place].to = to;
}

/* Each replica in the mask gets its own; now and then, and of replies to the outside, some other replica does. */
static void post_to_mask(letter told) {
    for (uint64_t replica = 0; replica < at.n && told.bytes[1] != JALLUMERE_OUTSIDE; replica++)
        if (holds(told.bytes[2], replica))
            post(told, told.bytes[1] * at.n + replica);
    if (chance(2))
        post(told, below(at.n * at.s));
}

static void deliver(letter told, uint64_t to) {
    uint8_t *state = net.states + at.length * to;
    uint64_t answer = try_all(state, told, net.from);
    if (JALLUMERE_NUMBER(answer) == JALLUMERE_DONE) {
        letter sent = {out_of[1], JALLUMERE_LENGTH(answer)};
        memcpy(state, state_of[1], at.length);
        if (chance(10))
            try_good(state, net.from);
        for (size_t place = 0; place < sent.length;) {
            letter first = {sent.bytes + place, 0};
            first.length = jallumere_message_length(at.n, at.s, first.bytes, sent.length - place);
            if (first.length == 0)
                end_with_difference("message_length", "what a step sends is cut nowhere", sent.bytes, sent.length);
            post_to_mask(first);
            place += first.length;
        }
    }
    if (chance(net.odd) && make_odd(state))
        net.from = FROM_EDIT;
}

/* From outside: a tick to one replica, at once; a transaction to the groups of its mask, a change of view to all. */
static void send_from_outside(uint64_t kind) {
    uint8_t room[256], bytes[ENTRY_LENGTH];
    letter told = {room, 0};
    message made = message_of_kind(kind, at.s);
    uint64_t request = chance(90) ? ++net.requests : 1 + below(net.requests + 1), to = below(at.n * at.s);
    uint64_t mask = kind == JALLUMERE_TRANSACTION ? 1 + below(bit(at.s) - 1)
                    : kind == JALLUMERE_TICK      ? bit(to / at.n)
                                                  : bit(at.s) - 1;
    write_entry(bytes, (entry){0, draw(), request, chance(95) ? below(3) : 65534, mask});
    made.views = net.views;
    made.entries = bytes;
    made.count = forms[kind].entries;
    made.numbers[0] = (net.time += below(3)) + below(chance(1) ? 200 : 20);
    made.numbers[1] = 1 + below(30);
    made.to_mask = kind == JALLUMERE_TICK ? bit(to % at.n) : bit(at.n) - 1;
    if (kind == JALLUMERE_CHANGE_VIEW)
        made.view = net.view += 1 + below(2);
    for (uint64_t group = 0; group < at.s && made.view != 0; group++)
        store(net.views + 4 * group, load(net.views + 4 * group, 4) + (chance(70) ? 1 : below(4)), 4);
    for (made.to_group = 0; made.to_group < at.s; made.to_group++) {
        compose(&told, &made);
        if (holds(mask, made.to_group) && kind != JALLUMERE_TICK)
            post_to_mask(told);
        else if (holds(mask, made.to_group))
            deliver(told, to);
    }
}

static void deliver_some(void) {
    if (net.waiting == 0)
        return;
    size_t place = (size_t)below(net.waiting);
    letter told = net.pool[place].told;
    uint64_t to = net.pool[place].to;
    net.pool[place] = net.pool[--net.waiting];
    net.pool[net.waiting].told.bytes = NULL;
    if (chance(net.repeat))
        post(told, to);
    if (!chance(net.loss))
        deliver(told, to);
    free(told.bytes);
}

/* Times of work and times of quiet, in which what waits is delivered and changes of view can end. */
static void run_groups(uint64_t turns) {
    uint64_t replicas = at.n * at.s, changes = 1 + 4 * replicas + below(40 * replicas); /* one turn in so many */
    net.states = memory(at.length * replicas);
    net.waiting = 0;
    net.time = net.view = net.requests = 0;
    memset(net.views, 0, sizeof net.views);
    net.loss = below(15);
    net.repeat = below(30);
    net.odd = chance(50) ? 0 : 1 + below(12);
    net.from = FROM_RUN;
    make_past(below(at.s)); /* for edits */
    for (uint64_t i = 0; i < replicas; i++) {
        try_start(i / at.n, i % at.n);
        memcpy(net.states + at.length * i, state_of[1], at.length);
    }
    for (uint64_t turn = 0; turn < turns; turn++) {
        bool quiet = turn / 200 % 2 == 1 || net.waiting > POOL / 2;
        uint64_t what = below(1000);
        if (below(changes) == 0 && !quiet)
            send_from_outside(JALLUMERE_CHANGE_VIEW);
        else if (what < 300)
            send_from_outside(what < 100 && !quiet ? JALLUMERE_TRANSACTION : JALLUMERE_TICK);
        else
            deliver_some();
    }
    free(net.states);
}

/* ---- built states ------------------------------------------------------------------------------------ */

/* Steps of one kind, or of any (0), until so many are done; of any kind some go on from the state that was left. */
static void run_built(uint64_t asked, uint64_t wanted) {
    static uint8_t room[LETTER_ROOM];
    letter told = {room, 0};
    uint64_t group = below(at.s), done = 0;
    bool left = false;
    make_past(group);
    for (uint64_t tries = 0; done < wanted && tries < 20 * wanted; tries++) {
        uint64_t kind = asked == 0 ? some_kind() : asked;
        if (asked != 0 || !left || chance(30))
            build_state(built_state, group, asked == 0 && chance(25) ? some_kind() : kind);
        if (chance(8))
            make_odd(built_state);
        try_good(built_state, BUILT);
        fit_message(built_state, kind, &told);
        uint64_t answer = try_all(built_state, told, BUILT);
        left = JALLUMERE_NUMBER(answer) == JALLUMERE_DONE;
        done += left;
        if (left)
            memcpy(built_state, state_of[1], at.length);
    }
}

/* Each kind that a site takes, in each shape where it can come, and more where a step costs less. */
static void run_shares(void) {
    static const uint64_t shapes[][2] = {{3, 1}, {3, 2}, {5, 3}, {7, 1}, {7, 8}}, capacities[] = {4096, 256, 17, 16};
    for (unsigned i = 0; i < 5 * 4 * KINDS; i++) {
        uint64_t kind = i % KINDS, capacity = capacities[i / KINDS % 4];
        at = lay_out(shapes[i / KINDS / 4][0], shapes[i / KINDS / 4][1], capacity);
        uint64_t share = kind == JALLUMERE_VOTE || kind == JALLUMERE_VERIFY_REPLY ? 150 : 60;
        if (is_kind(kind) && forms[kind].path != OUTBOUND && !(forms[kind].sender == OTHER_LEADER && at.s == 1))
            run_built(kind, (capacity == 4096 ? 24 : share) * steps_wanted / 100000 + 1);
    }
}

/* Logs beyond the greatest capacity, for the reader: good ones, and with a transaction twice, close by or apart; and
 * these with an entry spoilt. */
static void try_long_logs(void) {
    static const uint64_t counts[] = {4096, 4097, 6000, 8193, 9000};
    static uint8_t views[8], entries[ENTRY_LENGTH * 9000], room[LETTER_ROOM];
    letter told = {room, 0};
    message made = message_of_kind(JALLUMERE_REPLICA_SYNC, 2);
    at = lay_out(3, 2, 4096);
    made.to_group = made.from_group = made.from_replica = 0;
    made.views = views;
    made.entries = entries;
    for (unsigned i = 0; i < 15; i++) {
        made.count = counts[i / 3];
        for (uint64_t j = 0; j < made.count; j++)
            write_entry(entries + ENTRY_LENGTH * j, (entry){1 + j / 3, draw(), 1 + j % 5000, j / 5000, 1 | below(4)});
        uint64_t one = i % 3 == 1 ? below(made.count - 9) : made.count - 9, other = made.count - 1 - below(8);
        if (i % 3 != 0)
            memcpy(entries + ENTRY_LENGTH * other + AT_TRANSACTION, entries + ENTRY_LENGTH * one + AT_TRANSACTION,
                   TRANSACTION_LENGTH);
        for (unsigned j = 0; j < 5; j++) {
            compose(&told, &made);
            if (j != 0)
                spoil_entry(&told);
            try_read(told);
        }
    }
}

/* Small capacities mostly: there tables are full soon. */
static void run_some(void) {
    uint64_t n = 3 + 2 * below(3), s = 1 + below(8), c = chance(55) ? 16 : 16 + below(49), large = below(1000);
    bool built = chance(65);
    if (large < 20)
        c = large < 16 ? 256 : 4096;
    at = c > 64 && !built ? lay_out(3, s > 2 ? 2 : s, c) : lay_out(n, s, c);
    if (built)
        run_built(0, c == 4096 ? 4 : c > 64 ? 40 : 300);
    else
        run_groups(c == 4096 ? 200 : 300 + 60 * n * s);
}

/* ---- recorded steps ---------------------------------------------------------------------------------- */

/* A trace is a row of records. 01, n (1), S (1), C (2), group (1), replica (1) starts afresh. 02, outgoing room (4),
 * message length (4), the message, and what is expected: refusal (1), offset (4), outgoing length (4), FNV-1a of the
 * outgoing bytes (8), FNV-1a of the state (8). 05, n (1), S (1), message length (4), the message is one for the reader,
 * of which the refusal (1) and the offset (4) are expected. */
static letter records;

enum { OF_START = 1, OF_STEP = 2, OF_RECOVER = 3, OF_CUT = 4, OF_READ = 5 };

static const uint8_t *take(size_t length) {
    if (records.length < length)
        stop("the file of traces ends within a record");
    records.length -= length;
    records.bytes += length;
    return records.bytes - length;
}

/* Gives whether core and model agree and the record says otherwise; the first such step is shown. */
static bool replay_step(uint8_t *state, bool shown) {
    const layout largest = lay_out(REPLICAS_MOST, GROUPS_MOST, CAPACITY_MOST);
    size_t room = load(take(4), 4), length = load(take(4), 4);
    if (room > ample_room(&largest))
        stop("a record asks for more room than any step needs");
    letter told = {(uint8_t *)take(length), length};
    const uint8_t *expected = take(1 + 4 + 4 + 8 + 8);
    uint64_t answer = try_step(state, told, room, RECORDED);
    memcpy(state, state_of[1], at.length);
    bool same =
        JALLUMERE_NUMBER(answer) == expected[0] && JALLUMERE_OFFSET(answer) == load(expected + 1, 4) &&
        JALLUMERE_LENGTH(answer) == load(expected + 5, 4) &&
        jallumere_digest(JALLUMERE_DIGEST_START, out_of[1], JALLUMERE_LENGTH(answer)) == load(expected + 9, 8) &&
        jallumere_digest(JALLUMERE_DIGEST_START, state, at.length) == load(expected + 17, 8);
    if (!same && !shown)
        printf("the record says otherwise at step %" PRIu64 ", of kind %u: expected answer %u, offset %" PRIu64
               " and %" PRIu64 " bytes to send, given %u, %zu and %zu, or other bytes\n",
               steps_done, length == 0 ? 0 : told.bytes[0], expected[0], load(expected + 1, 4), load(expected + 5, 4),
               JALLUMERE_NUMBER(answer), JALLUMERE_OFFSET(answer), JALLUMERE_LENGTH(answer));
    return !same;
}

/* The same of a message for the reader. */
static bool replay_read(bool shown) {
    const uint8_t *sizes = take(2);
    size_t length = load(take(4), 4);
    letter told = {(uint8_t *)take(length), length};
    const uint8_t *expected = take(1 + 4);
    at = (layout){.n = sizes[0], .s = sizes[1]};
    uint64_t answer = try_read(told), recorded = expected[0] + 256 * load(expected + 1, 4);
    if (answer != recorded && !shown)
        printf("the record says otherwise of a message of kind %u and %zu bytes, n %" PRIu64 ", S %" PRIu64
               ": expected answer %u and offset %" PRIu64 ", given %u and %" PRIu64 "\n",
               length == 0 ? 0 : told.bytes[0], length, at.n, at.s, expected[0], recorded / 256,
               JALLUMERE_NUMBER(answer), answer / 256);
    return answer != recorded;
}

/* Gives the number of differences. */
static uint64_t replay(const char *path) {
    uint64_t begun = 0, read = 0, differences = 0;
    records.bytes = read_file(path, &records.length);
    while (records.length != 0) {
        uint8_t record = *take(1);
        if (record == OF_START) {
            const uint8_t *told = take(6);
            at = lay_out(told[0], told[1], load(told + 2, 2));
            try_start(told[4], told[5]);
            memcpy(spare_state, state_of[1], at.length);
            begun++;
        } else if (record == OF_STEP && at.length != 0)
            differences += replay_step(spare_state, differences != 0);
        else if (record == OF_READ) {
            differences += replay_read(differences != 0);
            read++;
        } else if (record == OF_RECOVER || record == OF_CUT)
            stop("the file of traces has a call of %s, which this core does not know",
                 record == OF_CUT ? "cut" : "recover");
        else
            stop("the file of traces has a record of no known sort, or its steps are recorded without offsets");
    }
    show_tables();
    printf("%" PRIu64 " starts, %" PRIu64 " recorded steps, %" PRIu64 " recorded messages, %" PRIu64 " differences\n",
           begun, steps_done, read, differences);
    return differences;
}

int main(int count, char **words) {
    const char *traces = NULL;
    const option options[] = {{"--steps", &steps_wanted, 0, UINT64_MAX / 100, NULL, NULL},
                              {"--seed", &seed, 0, UINT64_MAX, NULL, NULL},
                              {.name = "--traces", .word = &traces},
                              {.name = NULL}};
    read_words(count, words, options, NULL);
    seconds();
    seed_chance(seed);
    make_areas();
    if (traces != NULL)
        return replay(traces) == 0 ? 0 : 1;
    try_long_logs(); /* the greatest capacity comes up in every run, however short */
    run_shares();
    while (steps_done < steps_wanted)
        run_some();
    show_tables();
    printf("%" PRIu64 " steps, seed %" PRIu64 ", no difference; %.0f s\n", steps_done, seed, seconds());
    return 0;
}
