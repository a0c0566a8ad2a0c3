/* Stands between the program and the C library (LD_PRELOAD): it counts the program's allocations, reads and writes, and lets
   chosen ones fail. tests/faults builds it and says what it has to do by these variables:

   SHIM_FAIL=KIND HOW K   KIND is `allocation`, `read` or `write`; the K-th call of this kind (from 1) fails. HOW is `once`
                          (that call alone), `on` (it and all later ones) or `signal` (that call alone is interrupted: EINTR)
   SHIM_MOST=N            a read or a write moves at most N bytes
   SHIM_COUNTS=FILE       takes, when the program ends, how many allocations, reads and writes there were

   What goes to standard error is neither counted nor touched. */

#define _GNU_SOURCE
#include <dlfcn.h>
#include <errno.h>
#include <fcntl.h>
#include <stdio.h>
#include <stdlib.h>
#include <string.h>
#include <sys/syscall.h>
#include <unistd.h>

enum kind { ALLOCATION, READ, WRITE, KINDS };
static const char *const NAMES[KINDS] = {"allocation", "read", "write"};
static const int ERRORS[KINDS] = {ENOMEM, EIO, EIO};

static int counting; /* from the start of the program's own code to its end: what the loader does is not counted */
static unsigned long calls[KINDS];
static char failing[16], how[16];
static unsigned long failing_call;
static size_t most = (size_t)-1;

__attribute__((constructor)) static void start(void) {
    const char *fail = getenv("SHIM_FAIL"), *limit = getenv("SHIM_MOST");
    if (fail && sscanf(fail, "%15s %15s %lu", failing, how, &failing_call) != 3)
        _exit(125);
    if (limit)
        most = strtoul(limit, NULL, 10);
    counting = 1;
}

__attribute__((destructor)) static void end(void) {
    const char *name = getenv("SHIM_COUNTS");
    counting = 0;
    if (name) {
        FILE *file = fopen(name, "w");
        if (!file)
            _exit(125);
        fprintf(file, "%lu %lu %lu\n", calls[ALLOCATION], calls[READ], calls[WRITE]);
        fclose(file);
    }
}

/* Counts a call; whether it has to fail, with errno set. */
static int fails(enum kind kind) {
    if (!counting)
        return 0;
    calls[kind] += 1;
    if (strcmp(failing, NAMES[kind]) != 0)
        return 0;
    if (calls[kind] != failing_call && !(calls[kind] > failing_call && strcmp(how, "on") == 0))
        return 0;
    errno = strcmp(how, "signal") == 0 ? EINTR : ERRORS[kind];
    return 1;
}

static size_t moved(size_t size) {
    return size < most ? size : most;
}

void *malloc(size_t size) {
    static void *(*next)(size_t);
    if (!next)
        next = (void *(*)(size_t))dlsym(RTLD_NEXT, "malloc");
    return fails(ALLOCATION) ? NULL : next(size);
}

void *calloc(size_t count, size_t size) {
    static void *(*next)(size_t, size_t);
    if (!next)
        next = (void *(*)(size_t, size_t))dlsym(RTLD_NEXT, "calloc");
    return fails(ALLOCATION) ? NULL : next(count, size);
}

void *realloc(void *old, size_t size) {
    static void *(*next)(void *, size_t);
    if (!next)
        next = (void *(*)(void *, size_t))dlsym(RTLD_NEXT, "realloc");
    return fails(ALLOCATION) ? NULL : next(old, size);
}

ssize_t read(int file, void *bytes, size_t size) {
    return fails(READ) ? -1 : syscall(SYS_read, file, bytes, moved(size));
}

ssize_t write(int file, const void *bytes, size_t size) {
    if (file == STDERR_FILENO)
        return syscall(SYS_write, file, bytes, size);
    return fails(WRITE) ? -1 : syscall(SYS_write, file, bytes, moved(size));
}
