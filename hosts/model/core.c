/* The model in the place of the core: its functions under the names of include/jallumere.h, a copy of its own, so
 * that core and model can be linked into one program. What is linked with this runs before the core is proved, and
 * jallumere_is_model tells so. */
#define MODEL(name) jallumere_##name

#include "model.c"

uint64_t jallumere_version(void) { return JALLUMERE_VERSION; }

uint64_t jallumere_is_model(void) { return 1; }
