/* What the reports of a state and of a message share. */
#ifndef REPORT_H
#define REPORT_H

#include "../common/host.h"
#include "../common/messages.h"

enum { SHOWN_ENTRIES = 20 };

/* What was asked for on the command line; sizes that were not given are 0. */
extern uint64_t asked_n, asked_s;
extern bool show_all;

/* Prints a message's report, by the sizes asked for or, where none were, by those in which it goes furthest; gives
 * whether it is well formed. */
bool report_message(const uint8_t *message, size_t length);

/* Prints what a step of a good state makes of a message, and by which rule; gives whether it takes it. */
bool report_step(const layout *at, const uint8_t *state, const uint8_t *message, size_t length);

#endif
