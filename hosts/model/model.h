/*
 * The replica step in plain C: a second reading of the documents, to compare the core with and to measure
 * it against. The functions are those of include/jallumere.h under another prefix and promise the same.
 */
#ifndef MODEL_H
#define MODEL_H

#include "../../include/jallumere.h"

#ifndef MODEL
#define MODEL(name) model_##name
#endif

__typeof__(jallumere_state_length) MODEL(state_length);
__typeof__(jallumere_start) MODEL(start);
__typeof__(jallumere_step) MODEL(step);
__typeof__(jallumere_good) MODEL(good);
__typeof__(jallumere_order) MODEL(order);
__typeof__(jallumere_field) MODEL(field);
__typeof__(jallumere_group_view) MODEL(group_view);
__typeof__(jallumere_entry) MODEL(entry);
__typeof__(jallumere_read) MODEL(read);
__typeof__(jallumere_message_length) MODEL(message_length);
__typeof__(jallumere_write) MODEL(write);
__typeof__(jallumere_digest) MODEL(digest);

/* Why these bytes are not a good state: tells each part of the rules' "A good state" that fails, and the byte at
 * which it does. Gives how many there are, so 0 for a good state. The entries of a table whose count is past c are
 * not looked at. */
typedef void model_reason(void *listener, size_t byte, const char *rule);
uint64_t MODEL(why_not_good)(uint64_t n, uint64_t s, uint64_t c, const uint8_t *state, size_t state_length,
                             model_reason *tell, void *listener);

#endif
