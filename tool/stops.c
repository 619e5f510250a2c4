/* Stops from outside. sigaction is POSIX, not C99. */
#define _XOPEN_SOURCE 700
#include "stops.h"

#include <stddef.h>

const int stop_signals[STOPS] = { SIGINT, SIGTERM, SIGHUP };

void stops_hear(void (*call)(int), int flags, struct sigaction *before)
{
    struct sigaction action;
    unsigned k;

    action.sa_handler = call;
    action.sa_flags = flags;
    sigemptyset(&action.sa_mask);
    for (k = 0; k < STOPS; k++) {
        sigaction(stop_signals[k], NULL, &before[k]);
        if (before[k].sa_handler != SIG_IGN)
            sigaction(stop_signals[k], &action, NULL);
    }
}

void stops_restore(const struct sigaction *before)
{
    unsigned k;

    for (k = 0; k < STOPS; k++)
        sigaction(stop_signals[k], &before[k], NULL);
}
