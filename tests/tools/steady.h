/* The clock begins at NOW, each look at it takes a nanosecond, and nothing is drawn: runs that do the same leave the same files. */
#include <stdlib.h>
#include <string.h>
#include <time.h>

int clock_gettime(clockid_t which, struct timespec *to) {
    static long looks;
    const char *now = getenv("NOW");
    (void)which;
    to->tv_sec = now ? atol(now) : 0;
    to->tv_nsec = looks++;
    return 0;
}

int getentropy(void *to, size_t size) {
    memset(to, 7, size);
    return 0;
}
