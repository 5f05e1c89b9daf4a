/* A clock that is ahead: loaded by LD_PRELOAD, it tells the time of day as many milliseconds later as the text in
   the file AHEAD says. What measures how much time has passed is left as it is. */

#define _GNU_SOURCE
#include <dlfcn.h>
#include <fcntl.h>
#include <stdlib.h>
#include <time.h>
#include <unistd.h>

static long long ahead(void)
{
    char text[32] = "";
    const char *path = getenv("AHEAD");
    int place = path ? open(path, O_RDONLY) : -1;
    if (place < 0)
        return 0;
    if (read(place, text, sizeof text - 1) < 0)
        text[0] = 0;
    close(place);
    return atoll(text);
}

int clock_gettime(clockid_t which, struct timespec *now)
{
    static int (*real)(clockid_t, struct timespec *);
    if (!real)
        real = (int (*)(clockid_t, struct timespec *))dlsym(RTLD_NEXT, "clock_gettime");
    int told = real(which, now);
    if (told == 0 && which == CLOCK_REALTIME) {
        long long more = ahead(), parts = now->tv_nsec + more % 1000 * 1000000;
        now->tv_sec += more / 1000 + parts / 1000000000;
        now->tv_nsec = parts % 1000000000;
    }
    return told;
}
