/* A small host of one site, which keeps to the order that the theorems rest on: persist, then send, then reply.
 *
 *   example FOLDER GROUP REPLICA first|again [TIME] <MESSAGES >SENT
 *
 * FOLDER keeps the site. MESSAGES are messages in a row; with TIME a tick of that time comes after them. What goes to
 * sites is written to the standard output, what goes to coordinators is appended to FOLDER/replies, and a line on the
 * standard error tells of each entry that is committed. Exit status 1: the site must not go on. */
#define _POSIX_C_SOURCE 200809L
#include "jallumere.h"

#include <fcntl.h>
#include <inttypes.h>
#include <stdio.h>
#include <stdlib.h>
#include <string.h>
#include <unistd.h>

/* The sizes of the register, the same at every site; an outgoing buffer of this room is never too short. */
enum { N = 3, S = 1, C = 256, ROOM = C * (96 + 4 * S) + 24 + 4 * S };

/* What is kept on the disk is what lies in memory: a digest, the state and what the last step sent. The messages are
 * kept with the state, so that a site that fell over between the disk and the network sends them when it is back. */
struct site {
    size_t state_length, sent;
    uint8_t *state, *out;
    uint64_t applied;
};

static void stop(const char *words) {
    fprintf(stderr, "example: %s\n", words);
    exit(1);
}

static uint64_t digest_of(const struct site *own) {
    uint64_t of_state = jallumere_digest(JALLUMERE_DIGEST_START, own->state, own->state_length);
    return jallumere_digest(of_state, own->out, own->sent);
}

/* After this the site's new state outlives a loss of power; before it, the old one does. */
static void persist(const struct site *own) {
    FILE *file = fopen("site.new", "wb");
    uint64_t digest = digest_of(own);
    if (file == NULL || fwrite(&digest, sizeof digest, 1, file) != 1 ||
        fwrite(own->state, 1, own->state_length, file) != own->state_length ||
        fwrite(own->out, 1, own->sent, file) != own->sent || fflush(file) != 0 || fsync(fileno(file)) != 0 ||
        fclose(file) != 0 || rename("site.new", "site") != 0)
        stop("the state cannot be written");
    int folder = open(".", O_RDONLY);
    if (folder < 0 || fsync(folder) != 0 || close(folder) != 0)
        stop("the folder cannot be written");
}

/* A good state need not be the one that was stored, so the digest decides, and then the core. One of a core before
 * interface 2.1 is put in order here; a good one stays as it is. */
static void load(struct site *own, uint64_t group, uint64_t replica) {
    uint64_t digest;
    FILE *file = fopen("site", "rb");
    if (file == NULL)
        stop("the site's file is not there; a site that has lost its state stays out and is never started afresh");
    if (fread(&digest, sizeof digest, 1, file) != 1 ||
        fread(own->state, 1, own->state_length, file) != own->state_length)
        stop("the site's file is too short");
    own->sent = fread(own->out, 1, ROOM, file);
    if (fgetc(file) != EOF || ferror(file) || digest != digest_of(own))
        stop("the site's file is not what was written");
    fclose(file);
    if (jallumere_order(N, S, C, own->state, own->state_length) != JALLUMERE_DONE ||
        jallumere_field(N, S, C, JALLUMERE_FIELD_GROUP, own->state, own->state_length) != group ||
        jallumere_field(N, S, C, JALLUMERE_FIELD_REPLICA, own->state, own->state_length) != replica)
        stop("the file is no good state of this site");
}

/* The site's first start ever: where a file is there, or was, it is not the first. */
static void begin(struct site *own, uint64_t group, uint64_t replica) {
    if (access("site", F_OK) == 0)
        stop("the site's file is there, so this is not its first start");
    if (jallumere_start(N, S, C, group, replica, own->state, own->state_length) != JALLUMERE_DONE)
        stop("there is no such group or replica");
    persist(own);
}

/* Writes the messages of the last step: first those that go to sites, then those that go to coordinators. */
static void send_and_reply(const struct site *own) {
    FILE *const to[] = {stdout, fopen("replies", "ab")};
    if (to[1] == NULL)
        stop("replies cannot be written");
    for (int outside = 0; outside < 2; outside++) {
        for (size_t at = 0, length; at < own->sent; at += length) {
            length = (size_t)jallumere_message_length(N, S, own->out + at, own->sent - at);
            if (length == 0)
                stop("the core sent bytes that are no message");
            if ((own->out[at + 1] == JALLUMERE_OUTSIDE) == outside)
                fwrite(own->out + at, 1, length, to[outside]);
        }
        if (fflush(to[outside]) != 0 || ferror(to[outside]))
            stop("a message cannot be written; it will be when the host starts again");
    }
    fclose(to[1]);
}

/* What is applied lives in memory here, so it is applied again from the first entry when the host starts. */
static void apply_committed(struct site *own) {
    uint64_t commit = jallumere_field(N, S, C, JALLUMERE_FIELD_COMMIT_POINT, own->state, own->state_length);
    while (own->applied < commit) {
        own->applied++;
        fprintf(stderr, "committed %" PRIu64 ": command %" PRIu64 "\n", own->applied,
                jallumere_entry(N, S, C, own->applied, JALLUMERE_ENTRY_COMMAND, own->state, own->state_length));
    }
}

/* After a refusal every byte is as it was, so there is nothing to persist and nothing to send. */
static void take(struct site *own, const uint8_t *message, size_t length) {
    uint64_t answer = jallumere_step(N, S, C, own->state, own->state_length, message, length, own->out, ROOM);
    if (JALLUMERE_NUMBER(answer) == JALLUMERE_DONE) {
        own->sent = JALLUMERE_LENGTH(answer);
        persist(own);
        send_and_reply(own);
        apply_committed(own);
    } else {
        fprintf(stderr, "refused with %u: a message of kind %u", JALLUMERE_NUMBER(answer), message[0]);
        if (JALLUMERE_NUMBER(answer) == JALLUMERE_MALFORMED)
            fprintf(stderr, ", wrong at byte %zu", JALLUMERE_OFFSET(answer));
        fprintf(stderr, "\n");
        if (JALLUMERE_NUMBER(answer) == JALLUMERE_WRONG_STATE)
            stop("the state in memory is not good");
    }
}

/* The host alone makes ticks: from outside, for this site, the time as the only number. */
static void tick(struct site *own, uint64_t group, uint64_t replica, uint64_t time) {
    uint8_t message[64];
    uint64_t answer = jallumere_write(N, S, JALLUMERE_TICK, group, UINT64_C(1) << replica, JALLUMERE_OUTSIDE,
                                      JALLUMERE_OUTSIDE, 0, &time, 1, NULL, 0, NULL, 0, message, sizeof message);
    if (JALLUMERE_NUMBER(answer) != JALLUMERE_DONE)
        stop("this is no time for a tick of this site");
    take(own, message, JALLUMERE_LENGTH(answer));
}

/* The standard input holds whole messages, and the longest that a site can use is a vote with a full log. */
static void take_input(struct site *own) {
    static uint8_t input[2 * (24 * C + 40 + 4 * S)];
    size_t held = 0;
    ssize_t got;
    while ((got = read(STDIN_FILENO, input + held, sizeof input - held)) > 0) {
        size_t at = 0, length;
        held += (size_t)got;
        while ((length = (size_t)jallumere_message_length(N, S, input + at, held - at)) != 0) {
            take(own, input + at, length);
            at += length;
        }
        memmove(input, input + at, held -= at);
    }
    if (got < 0 || held != 0)
        stop("the input ends in what is no message");
}

static uint64_t number_of(const char *word) {
    if (*word == '\0' || strspn(word, "0123456789") != strlen(word) || strlen(word) > 19)
        stop("a group, a replica and a time are numbers");
    return strtoull(word, NULL, 10);
}

int main(int count, char **words) {
    struct site own = {0};
    if (count < 5 || count > 6 || (strcmp(words[4], "first") != 0 && strcmp(words[4], "again") != 0))
        stop("usage: example FOLDER GROUP REPLICA first|again [TIME] <MESSAGES >SENT");
    if (jallumere_version() / 10000 != JALLUMERE_VERSION / 10000)
        stop("the core that is linked has another interface");
    if (jallumere_is_model())
        fprintf(stderr, "example: the core is the C model, which is not proved\n");
    uint64_t group = number_of(words[2]), replica = number_of(words[3]);
    own.state_length = (size_t)jallumere_state_length(N, S, C);
    own.state = malloc(own.state_length);
    own.out = malloc(ROOM);
    if (own.state == NULL || own.out == NULL || chdir(words[1]) != 0)
        stop("no memory, or no such folder");
    (strcmp(words[4], "first") == 0 ? begin : load)(&own, group, replica);
    send_and_reply(&own);
    apply_committed(&own);
    take_input(&own);
    if (count == 6)
        tick(&own, group, replica, number_of(words[5]));
    return 0;
}
