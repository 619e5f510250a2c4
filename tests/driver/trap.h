/* Does work that may crash or hang. */
#ifndef TRAP_H
#define TRAP_H

#include <stdbool.h>

enum trapped { DONE_RIGHT, DONE_WRONG, CRASHED, HUNG };

/* Catches what would end the program. */
void trap_open(void);

/* Does the work within so many seconds. */
enum trapped trap(bool (*work)(void *), void *context, unsigned seconds);

#endif
