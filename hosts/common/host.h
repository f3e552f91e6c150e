/* What the host programs share besides bytes: the words of the command line, chance, memory, files and progress.
 * It comes before any header of the system. */
#ifndef HOST_H
#define HOST_H

#ifndef _POSIX_C_SOURCE
#define _POSIX_C_SOURCE 200809L
#endif

#include <errno.h>
#include <inttypes.h>
#include <stdarg.h>
#include <stdbool.h>
#include <stdio.h>
#include <stdlib.h>
#include <string.h>
#include <time.h>
#include <unistd.h>

/* Each program says its own. */
extern const char program_name[];

/* Says why on the standard error, behind the program's name, and ends with status 2. */
__attribute__((format(printf, 1, 2))) _Noreturn static inline void stop(const char *format, ...) {
    va_list words;
    va_start(words, format);
    fflush(stdout);
    fprintf(stderr, "%s: ", program_name);
    vfprintf(stderr, format, words);
    fprintf(stderr, "\n");
    va_end(words);
    exit(2);
}

/* Memory that was lent, or NULL, with another length. The program stops where there is none. */
static inline void *enlarged(void *lent, size_t length) {
    lent = realloc(lent, length);
    if (lent == NULL)
        stop("out of memory");
    return lent;
}

/* Zeros, and no more than were asked for, so that a tool sees what is read past them. */
static inline void *memory(size_t length) {
    length = length == 0 ? 1 : length;
    return memset(enlarged(NULL, length), 0, length);
}

/* A whole file, - for the standard input; the program stops where it cannot be read. */
static inline uint8_t *read_file(const char *path, size_t *length) {
    FILE *file = strcmp(path, "-") == 0 ? stdin : fopen(path, "rb");
    size_t room = 0;
    uint8_t *bytes = NULL;
    if (file == NULL)
        stop("'%s' cannot be opened", path);
    *length = 0;
    do {
        room = 2 * room + (1 << 16);
        bytes = enlarged(bytes, room);
        *length += fread(bytes + *length, 1, room - *length, file);
    } while (*length == room);
    if (ferror(file))
        stop("'%s' cannot be read", path);
    if (file != stdin)
        fclose(file);
    return bytes;
}

/* ---- the command line --------------------------------------------------------------------------------- */

/* One option: a number from least to most goes behind it, or any word, or nothing. The other two are NULL. */
typedef struct {
    const char *name;
    uint64_t *number, least, most;
    const char **word;
    bool *flag;
} option;

static inline uint64_t number_in(const option *asked, const char *text) {
    char *end = NULL;
    errno = 0;
    unsigned long long value = strtoull(text, &end, 10);
    if (*text < '0' || *text > '9' || *end != 0 || errno != 0 || value < asked->least || value > asked->most)
        stop("%s takes a number from %" PRIu64 " to %" PRIu64 ", not '%s'", asked->name, asked->least, asked->most,
             text);
    return value;
}

/* Options end with one without a name. The word that is no option goes to `bare`; where that is NULL there is none. */
static inline void read_words(int count, char **words, const option *options, const char **bare) {
    for (int i = 1; i < count; i++) {
        const option *asked = options;
        while (asked->name != NULL && strcmp(asked->name, words[i]) != 0)
            asked++;
        if (asked->name == NULL && (bare == NULL || (words[i][0] == '-' && words[i][1] != 0)))
            stop("unknown option '%s'; ./jallumere %s --help lists the options", words[i], program_name);
        else if (asked->name == NULL && *bare != NULL)
            stop("one at a time: '%s' and '%s' are two", *bare, words[i]);
        else if (asked->name == NULL)
            *bare = words[i];
        else if (asked->flag != NULL)
            *asked->flag = true;
        else if (words[++i] == NULL) /* as it is behind the last word */
            stop("%s takes a %s behind it; ./jallumere %s --help lists the options", asked->name,
                 asked->number != NULL ? "number" : "word", program_name);
        else if (asked->number != NULL)
            *asked->number = number_in(asked, words[i]);
        else
            *asked->word = words[i];
    }
}

/* ---- chance and time ---------------------------------------------------------------------------------- */

static uint64_t chance_state;

static inline void seed_chance(uint64_t seed) { chance_state = seed; }

/* SplitMix64. */
static inline uint64_t draw(void) {
    uint64_t mixed = chance_state += UINT64_C(0x9e3779b97f4a7c15);
    mixed = (mixed ^ mixed >> 30) * UINT64_C(0xbf58476d1ce4e5b9);
    mixed = (mixed ^ mixed >> 27) * UINT64_C(0x94d049bb133111eb);
    return mixed ^ mixed >> 31;
}

static inline uint64_t below(uint64_t limit) { return limit == 0 ? 0 : draw() % limit; }

static inline bool chance(uint64_t percent) { return below(100) < percent; }

/* Since the first call. */
static inline double seconds(void) {
    static struct timespec first;
    struct timespec time;
    clock_gettime(CLOCK_MONOTONIC, &time);
    if (first.tv_sec == 0)
        first = time;
    return (double)(time.tv_sec - first.tv_sec) + 1e-9 * (double)(time.tv_nsec - first.tv_nsec);
}

/* How far a long run has come, on the standard error: on a terminal one line that changes, elsewhere a line now and
 * then; nothing in the first two seconds. */
static inline void show_progress(uint64_t done, uint64_t wanted, const char *what) {
    static double last;
    bool terminal = isatty(2) == 1;
    double time = seconds();
    if (time - last < (last == 0 ? 2 : terminal ? 0.5 : 5))
        return;
    last = time;
    fprintf(stderr, "%s%s: %" PRIu64 " of %" PRIu64 " %s, %.0f s%s", terminal ? "\r" : "", program_name, done, wanted,
            what, time, terminal ? " " : "\n");
    fflush(stderr);
}

#endif
