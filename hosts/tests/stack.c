/* How many bytes of stack a call of the core needs, for each row of bench at each capacity, by painting: the call is
 * made on a stack of its own that is all one byte, and what it has changed is counted from the far end.
 *
 *     gcc -std=c11 -O3 -I include -I hosts/common -I hosts/model -o target/stack hosts/tests/stack.c hosts/common/places.c \
 *         hosts/model/model.c target/staticlib/libreplica.a && target/stack */
#define _GNU_SOURCE
#include <ucontext.h>

#define main bench_main
#include "../bench/bench.c"
#undef main

enum { STACK = 1 << 20, PAINT = 0xa5 };

static uint8_t stack[STACK] __attribute__((aligned(4096)));
static ucontext_t caller, callee;
static const cell *stepped; /* NULL: the call of nothing, which takes what the switch itself needs */

static void call(void) {
    if (stepped != NULL)
        make_call(stepped, 0, copies[0]);
}

static size_t painted_over(const cell *now) {
    size_t left = 0;
    stepped = now;
    memset(stack, PAINT, STACK);
    getcontext(&callee);
    callee.uc_stack.ss_sp = stack;
    callee.uc_stack.ss_size = STACK;
    callee.uc_link = &caller;
    makecontext(&callee, call, 0);
    swapcontext(&caller, &callee);
    while (left < STACK && stack[left] == PAINT)
        left++;
    return STACK - left;
}

/* The most of both shapes and of all lengths of the log. */
int main(void) {
    const layout most = lay_out(REPLICAS_MOST, GROUPS_MOST, CAPACITY_MOST);
    state = memory(most.length);
    copies[0] = memory(most.length);
    letter = memory(opening_length(GROUPS_MOST, NUMBERS_MOST) + most.table);
    out[0] = memory(ample_room(&most));
    const size_t nothing = painted_over(NULL);
    printf("%-28s %9s %9s %9s\n", "", "C = 16", "C = 256", "C = 4,096");
    for (const row *of = rows; of < rows + ROWS; of++) {
        printf("%2u %-25s", of->kind, of->name);
        for (int capacity = 0; capacity < CAPACITIES; capacity++) {
            size_t need = 0;
            cell_count = 0;
            for (unsigned i = 0; i < SHAPES * FILLS; i++)
                add_cell(of, shapes[i / FILLS], capacities[capacity], i % FILLS);
            for (const cell *now = cells; now < cells + cell_count; now++) {
                put_state(now);
                put_letter(now);
                memcpy(copies[0], state, now->at.length);
                size_t taken = painted_over(now) - nothing;
                need = taken > need ? taken : need;
            }
            printf(" %9zu", need);
        }
        printf("\n");
    }
    return 0;
}
