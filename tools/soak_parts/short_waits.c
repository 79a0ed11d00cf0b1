// Waits of the program for its sockets, on a faster clock: preloaded before libfaketime, which divides whole
// milliseconds, so that a wait of 5 ms becomes none at all, and the program never sleeps.
#define _GNU_SOURCE
#include <stdlib.h>
#include <sys/epoll.h>
#include <sys/prctl.h>
#include <sys/syscall.h>
#include <time.h>
#include <unistd.h>

#define MILLISECOND 1000000LL
#define SECOND 1000000000LL
#define SIGNALS 8 // octets of the kernel's set of signals

int epoll_wait(int poll, struct epoll_event *events, int most, int timeout)
{
    static long long speed;
    struct timespec wait, *limit = NULL;
    if (!speed) {
        const char *text = getenv("SOAK_SPEED");
        speed = text ? atoll(text) : 1;
        prctl(PR_SET_TIMERSLACK, 1L);
    }
    if (timeout >= 0) {
        long long left = timeout * MILLISECOND / speed;
        wait = (struct timespec){left / SECOND, left % SECOND};
        limit = &wait;
    }
    return syscall(SYS_epoll_pwait2, poll, events, most, limit, NULL, SIGNALS);
}
