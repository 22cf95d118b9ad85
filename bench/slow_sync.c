/* Has each sync of a program take SYNC_MS milliseconds longer, as on a disk that has to write before it answers. */
#define _GNU_SOURCE
#include <dlfcn.h>
#include <stdlib.h>
#include <time.h>

static void wait_longer(void) {
    const char *said = getenv("SYNC_MS");
    long milliseconds = said ? atol(said) : 0;
    struct timespec more = {milliseconds / 1000, milliseconds % 1000 * 1000000};
    nanosleep(&more, 0);
}

static int synced(const char *name, int file) {
    int (*real)(int) = (int (*)(int))dlsym(RTLD_NEXT, name);
    wait_longer();
    return real(file);
}

int fsync(int file) { return synced("fsync", file); }

int fdatasync(int file) { return synced("fdatasync", file); }
