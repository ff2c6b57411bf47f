/* Sets the clock back that a program sees: for tests/links.py.

   Loaded in front of the C library (LD_PRELOAD), it answers the clock that can be set as it is at the first reading, and from the
   second reading on by an hour less. The clock that cannot be set it leaves alone. */
#define _GNU_SOURCE
#include <dlfcn.h>
#include <time.h>

static int readings;
static int (*real)(clockid_t, struct timespec *);

int clock_gettime(clockid_t clock, struct timespec *time) {
    if (!real)
        real = (int (*)(clockid_t, struct timespec *))dlsym(RTLD_NEXT, "clock_gettime");
    int answer = real(clock, time);
    if (answer == 0 && clock == CLOCK_REALTIME && readings++ > 0)
        time->tv_sec -= 3600;
    return answer;
}
