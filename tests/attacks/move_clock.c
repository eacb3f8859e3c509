/* Loaded before the C library by tests/attacks: moves the clocks that the program reads, by the two counts of seconds in the file
   MOVED_CLOCK: that of the time of day, and the one that only goes on. */
#define _GNU_SOURCE
#include <fcntl.h>
#include <stdlib.h>
#include <sys/syscall.h>
#include <time.h>
#include <unistd.h>

int clock_gettime(clockid_t clock, struct timespec *now) {
    /* The system is asked itself: the next function of this name may be that of a sanitizer. */
    int status = syscall(SYS_clock_gettime, clock, now);
    const char *name = getenv("MOVED_CLOCK");
    int file = name ? open(name, O_RDONLY | O_CLOEXEC) : -1;
    char text[64] = {0};
    if (file < 0) {
        return status;
    }
    if (read(file, text, sizeof text - 1) > 0) {
        char *rest;
        long of_day = strtol(text, &rest, 10), going_on = strtol(rest, NULL, 10);
        now->tv_sec += clock == CLOCK_REALTIME ? of_day : clock == CLOCK_MONOTONIC ? going_on : 0;
    }
    close(file);
    return status;
}
