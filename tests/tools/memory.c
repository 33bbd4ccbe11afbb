/* Refuses one allocation: that whose number, from 1, is in REFUSED. The number of all is written to the file named in COUNTED. */
#define _GNU_SOURCE
#include <dlfcn.h>
#include <errno.h>
#include <stdio.h>
#include <stdlib.h>
#include "steady.h"

static void *(*next_malloc)(size_t);
static void *(*next_realloc)(void *, size_t);
static long refused, count;

static void begin(void) {
    const char *number = getenv("REFUSED");
    refused = number ? atol(number) : 0;
    next_realloc = dlsym(RTLD_NEXT, "realloc");
    next_malloc = dlsym(RTLD_NEXT, "malloc");
}

static int is_refused(void) {
    count += 1;
    if (count != refused) return 0;
    errno = ENOMEM;
    return 1;
}

void *malloc(size_t size) {
    if (!next_malloc) begin();
    return is_refused() ? NULL : next_malloc(size);
}

void *realloc(void *block, size_t size) {
    if (!next_malloc) begin();
    return is_refused() ? NULL : next_realloc(block, size);
}

/* Of several processes, one in another, the one that makes most allocations tells. */
__attribute__((destructor)) static void tell(void) {
    const char *path = getenv("COUNTED");
    long all = count, told = -1;
    FILE *file;
    refused = 0;
    file = path ? fopen(path, "r") : NULL;
    if (file) {
        if (fscanf(file, "%ld", &told) != 1) told = -1;
        fclose(file);
    }
    file = path && all > told ? fopen(path, "w") : NULL;
    if (!file) return;
    fprintf(file, "%ld\n", all);
    fclose(file);
}
