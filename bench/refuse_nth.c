/* Refuses the Nth request for memory of a program, N in REFUSE_AT; 0 refuses none. At the end of a run that made fewer
 * requests it makes the empty file that REFUSE_REPORT names. */
#define _GNU_SOURCE
#include <dlfcn.h>
#include <errno.h>
#include <fcntl.h>
#include <stdlib.h>
#include <unistd.h>

static long left = -1;
static int ready;
static void *(*real_malloc)(size_t);
static void *(*real_realloc)(void *, size_t);

__attribute__((constructor)) static void get_ready(void) {
    if (ready) return;
    ready = 1;
    real_malloc = dlsym(RTLD_NEXT, "malloc");
    real_realloc = dlsym(RTLD_NEXT, "realloc");
    const char *at = getenv("REFUSE_AT");
    left = at ? atol(at) : -1;
}

static int is_refused(void) {
    if (left > 0 && --left == 0) {
        errno = ENOMEM;
        return 1;
    }
    return 0;
}

void *malloc(size_t size) {
    get_ready();
    return is_refused() ? 0 : real_malloc(size);
}

void *realloc(void *old, size_t size) {
    get_ready();
    return is_refused() ? 0 : real_realloc(old, size);
}

__attribute__((destructor)) static void report(void) {
    const char *name = getenv("REFUSE_REPORT");
    if (name && left > 0) {
        int file = open(name, O_CREAT | O_WRONLY, 0600);
        if (file >= 0) close(file);
    }
}
