/* A crash or a hang leads back to where the work began. */
#define _POSIX_C_SOURCE 200809L
#include "trap.h"

#include <setjmp.h>
#include <signal.h>
#include <string.h>
#include <unistd.h>

static sigjmp_buf back;
static volatile sig_atomic_t inside;

static void caught(int signal)
{
    if (inside)
        siglongjmp(back, signal == SIGALRM ? HUNG : CRASHED);
    _exit(3);
}

void trap_open(void)
{
    static const int signals[] = { SIGSEGV, SIGBUS, SIGILL, SIGFPE, SIGABRT, SIGALRM };
    struct sigaction action;
    unsigned k;

    memset(&action, 0, sizeof action);
    action.sa_handler = caught;
    action.sa_flags = SA_NODEFER;
    sigemptyset(&action.sa_mask);
    for (k = 0; k < sizeof signals / sizeof signals[0]; k++)
        sigaction(signals[k], &action, NULL);
}

enum trapped trap(bool (*work)(void *), void *context, unsigned seconds)
{
    int came = sigsetjmp(back, 0);
    bool right;

    if (came != 0) {
        inside = 0;
        alarm(0);
        return (enum trapped)came;
    }
    inside = 1;
    alarm(seconds);
    right = work(context);
    alarm(0);
    inside = 0;
    return right ? DONE_RIGHT : DONE_WRONG;
}
