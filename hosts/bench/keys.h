/* Transactions that are chosen against a table of transactions by key: the core's, as crates/hashed/specs/Table.antt
 * defines it, or the C model's. Whoever sends transactions can choose them so: both hashes are public. */
#ifndef KEYS_H
#define KEYS_H

#include "../common/layout.h"

enum { CHOSEN_MOST = 3 * CAPACITY_MOST };
enum { PATH_KEYS = 68 };  /* that begin at one slot, or at two neighbours, and fill a path of 64 in every vote's log */
enum { CROWD_KEYS = 60 }; /* that nearly fill a path, so that the table still serves */
enum { MODELS = 5 };      /* the model's hash, behind the five that the core had */

/* Hashes of keys that begin at one slot of the core's largest table; in a smaller one at two neighbours. */
#define ONE_SLOT (UINT64_C(0x100000000) / (2 * CHOSEN_MOST))

/* What the keys are chosen against. */
typedef struct {
    const char *name;
    unsigned hashes; /* of the core: so many groups of keys, of which each fills a path in its own */
    unsigned number; /* without such groups: the hash against which all keys are chosen */
    unsigned crowd;  /* and how many of them begin at one slot; 0: all */
} attack;

static const attack attacks[] = {
    {"crowded", .crowd = CROWD_KEYS},
    {"model's", .number = MODELS},
    {"1 hash", .hashes = 1},
    {"2 hashes", .hashes = 2},
    {"3 hashes", .hashes = 3},
    {"5 hashes", .hashes = 5},
};

enum { ATTACKS = sizeof attacks / sizeof *attacks };

/* 4 bytes of which a slot is the part that the table's size is of 2^32. Hashes 1 to 4 of the core have two rounds. */
static uint32_t hash_of(unsigned number, uint64_t request, uint64_t coordinator) {
    static const uint32_t by[][4] = {{1779033703, 3144134277, 1013904243, 2773480763},
                                     {1359893119, 2600822925, 528734635, 1541459225},
                                     {3418070365, 1654270251, 2438529371, 355462361},
                                     {1731405415, 2394180231, 3675008525, 1203062813}};
    if (number == MODELS)
        return (uint32_t)(((coordinator << 32 | request) * UINT64_C(0x9e3779b97f4a7c15)) >> 32);
    if (number == 0)
        return (uint32_t)(request * 2654435769 + coordinator * 2246822507);
    uint32_t first = (uint32_t)(request * by[number - 1][0] + coordinator * by[number - 1][1]);
    return (first & 0xffff) * by[number - 1][2] + (first >> 16) * by[number - 1][3];
}

/* Entry i has coordinator i mod 4, and 4 more where its transaction is chosen: so none is chosen that another has, and
 * the order of the entries stays. */
static uint64_t coordinator_of(uint64_t i, bool chosen) { return (chosen ? 4 : 0) + i % 4; }

/* So many requests, each the next whose hash is wanted. */
static void choose_requests(uint32_t *requests, const attack *against, uint64_t count) {
    uint64_t crowds = against->crowd == 0 ? 1 : (count + against->crowd - 1) / against->crowd;
    uint32_t request = 0;
    for (uint64_t i = 0; i < count; i++) {
        unsigned number = against->hashes == 0 ? against->number : (unsigned)(i / PATH_KEYS);
        uint32_t wanted = (uint32_t)(UINT64_C(0x100000000) / crowds * (i % crowds));
        do
            request++;
        while (hash_of(number, request, coordinator_of(i, true)) - wanted >= ONE_SLOT);
        requests[i] = request;
    }
}

#endif
