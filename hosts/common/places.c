#include "layout.h"

#include <inttypes.h>
#include <stdio.h>

/* A row of items that are all as long, behind a count of 4 bytes or behind nothing; some hold a table of entries. */
typedef struct {
    const char *name;
    size_t begin, before, width, table;
} section;

enum { NO_TABLE = -1 };

/* Behind a name: a table's count, or one of its entries. */
static void describe_table(const uint8_t *table, size_t within, char *room) {
    size_t position = within < 4 ? 0 : (within - 4) / ENTRY_LENGTH;
    entry read = read_entry(table + entry_place(position));
    if (within < 4)
        sprintf(room, " counts %" PRIu64, load(table, 4));
    else
        sprintf(room, " entry %zu: transaction %" PRIu64 ".%" PRIu64 " at %" PRIu64 ", mask %#" PRIx64, position + 1,
                read.coordinator, read.request, read.timestamp, read.mask);
}

const char *describe_place(const layout *at, const uint8_t *state, size_t byte, char room[PLACE_ROOM]) {
    const section sections[] = {{"gVec, group %zu", at->views, 0, 4, NO_TABLE},
                                {"sync point heard from replica %zu", at->heard, 0, MARKED_LENGTH, NO_TABLE},
                                {"log", at->log, 0, at->table, 0},
                                {"early", at->early, 0, at->table, 0},
                                {"late", at->late, 0, at->table, 0},
                                {"note %zu", at->notes, 4, at->note, NO_TABLE},
                                {"vote of replica %zu", at->votes, 0, at->vote, VOTE_HEAD_LENGTH},
                                {"draft", at->draft, 0, at->table, 0},
                                {"reply of group %zu", at->replies, 0, at->reply, 1}};
    const section *here = &sections[sizeof sections / sizeof *sections - 1];
    for (const field_place *field = head_fields; field < head_fields + HEAD_FIELDS; field++)
        if (byte - field->at < field->width)
            sprintf(room, "%s: %" PRIu64, field->name, load(state + field->at, field->width));
    if (byte < HEAD_LENGTH)
        return room;
    while (here->begin > byte)
        here--;
    size_t within = byte - here->begin, number = within < here->before ? 0 : (within - here->before) / here->width;
    const uint8_t *item = state + here->begin + here->before + here->width * number;
    int written = sprintf(room, here->name, number + (here->before != 0)); /* notes count from 1 */
    within = byte - (size_t)(item - state);
    if (here->begin == at->notes)
        sprintf(room + written, " of transaction %" PRIu64 ".%" PRIu64, load(item + 4, 2), load(item, 4));
    else if (here->table != (size_t)NO_TABLE && within >= here->table)
        describe_table(item + here->table, within - here->table, room + written);
    return room;
}
