// Loaded before the C library's functions: counts the calls of the program, and lets those with some numbers fail.
//
// TRIAL_FAULT is "CALL FIRST LAST ACTION NUMBER": which calls of a kind, counted from 1, and what happens to them.
// `error` fails with that number of an error, `torn` does half of the call and then fails, `short` does half of it,
// `kill` ends the process before the call, `half` after half of it, `done` after all of it. The call `room` lets no byte
// of the journal come to stand at the place FIRST or behind it, and `limit` is no call: the process has FIRST KiB of
// memory. TRIAL_COUNTS is a file to count in, and TRIAL_TRACE
// one that gets the calls which write: the journal's, and how many bytes went to standard output.
#define _GNU_SOURCE
#include <dlfcn.h>
#include <errno.h>
#include <fcntl.h>
#include <pthread.h>
#include <signal.h>
#include <stdarg.h>
#include <stdatomic.h>
#include <stdint.h>
#include <stdio.h>
#include <stdlib.h>
#include <string.h>
#include <sys/file.h>
#include <sys/mman.h>
#include <sys/resource.h>
#include <sys/stat.h>
#include <sys/syscall.h>
#include <unistd.h>

enum call { OPEN, LOCK, LENGTH, PREAD, PWRITE, SYNC, READ, WRITE, MEMORY, THREAD, ROOM, LIMIT, CALLS };
static const char *const names[CALLS] = {
    "open", "lock", "length", "pread", "pwrite", "sync", "read", "write", "memory", "thread", "room", "limit",
};
enum action { NONE, ERROR, TORN, SHORT, KILL, HALF, DONE };
static const char *const actions[] = {"none", "error", "torn", "short", "kill", "half", "done"};

extern void *__libc_malloc(size_t), *__libc_realloc(void *, size_t);
static atomic_long own[CALLS + 1], *counts = own;
static int journal = -1, trace = -1, failing = CALLS, action, number;
static long first, last;
static pthread_mutex_t tracing = PTHREAD_MUTEX_INITIALIZER;

// Notes that a fault has happened, behind the counts.
static void happened(void) { counts[CALLS] = 1; }

__attribute__((constructor)) static void begin(void) {
    const char *fault = getenv("TRIAL_FAULT"), *counted = getenv("TRIAL_COUNTS"), *traced = getenv("TRIAL_TRACE");
    char call[16], what[16];
    if (counted) {
        int file = syscall(SYS_openat, AT_FDCWD, counted, O_RDWR | O_CREAT, 0666);
        if (ftruncate(file, 4096) == 0)
            counts = mmap(NULL, 4096, PROT_READ | PROT_WRITE, MAP_SHARED, file, 0);
        syscall(SYS_close, file);
    }
    if (traced)
        trace = syscall(SYS_openat, AT_FDCWD, traced, O_WRONLY | O_CREAT | O_APPEND | O_CLOEXEC, 0666);
    for (int kind = 0; kind <= CALLS; kind++)
        counts[kind] = 0;
    if (fault && sscanf(fault, "%15s %ld %ld %15s %d", call, &first, &last, what, &number) == 5) {
        for (int kind = 0; kind < CALLS; kind++)
            if (!strcmp(call, names[kind]))
                failing = kind;
        for (int kind = ERROR; kind <= DONE; kind++)
            if (!strcmp(what, actions[kind]))
                action = kind;
    }
    if (failing == LIMIT) {
        struct rlimit most = {first << 10, first << 10};
        if (setrlimit(RLIMIT_AS, &most) == 0)
            happened();
    }
}

static void die(void) {
    happened();
    syscall(SYS_kill, getpid(), SIGKILL);
    for (;;)
        syscall(SYS_pause);
}

// What happens to this call. A kill before it happens here.
static enum action next(enum call kind) {
    long call = ++counts[kind];
    if (kind != (enum call)failing || call < first || call > last)
        return NONE;
    happened();
    if (action == KILL)
        die();
    if (action == ERROR)
        errno = number;
    return action;
}

static void note(char kind, int64_t place, const void *bytes, uint32_t size) {
    char head[13];
    if (trace < 0)
        return;
    pthread_mutex_lock(&tracing);
    head[0] = kind;
    memcpy(head + 1, &place, 8);
    memcpy(head + 9, &size, 4);
    syscall(SYS_write, trace, head, 13);
    if (bytes)
        syscall(SYS_write, trace, bytes, size);
    pthread_mutex_unlock(&tracing);
}

// The end of a call that went on with a part of its bytes.
static ssize_t ended(enum action what, ssize_t got) {
    if (what == HALF || what == DONE)
        die();
    if (what == TORN) {
        errno = number;
        return -1;
    }
    return got;
}

static size_t part(enum action what, size_t size) {
    return what == TORN || what == SHORT || what == HALF ? (size + 1) / 2 : size;
}

int open(const char *path, int flags, ...) {
    va_list more;
    va_start(more, flags);
    int mode = flags & O_CREAT ? va_arg(more, int) : 0;
    va_end(more);
    int is_journal = !strcmp(path, "tsctl.journal");
    if (is_journal && next(OPEN) == ERROR)
        return -1;
    int file = syscall(SYS_openat, AT_FDCWD, path, flags, mode);
    if (is_journal)
        journal = file;
    return file;
}

int flock(int file, int how) { return next(LOCK) == ERROR ? -1 : syscall(SYS_flock, file, how); }

int statx(int folder, const char *restrict path, int flags, unsigned mask, struct statx *restrict found) {
    return next(LENGTH) == ERROR ? -1 : syscall(SYS_statx, folder, path, flags, mask, found);
}

ssize_t pread(int file, void *bytes, size_t size, off_t place) {
    enum action what = next(PREAD);
    return what == ERROR ? -1 : ended(what, syscall(SYS_pread64, file, bytes, part(what, size), place));
}

ssize_t pwrite(int file, const void *bytes, size_t size, off_t place) {
    enum action what = next(PWRITE);
    if (what == ERROR)
        return -1;
    if (failing == ROOM && place + (off_t)size > first) {
        happened();
        if (place >= first) {
            errno = ENOSPC;
            return -1;
        }
        size = first - place;
    }
    size = part(what, size);
    note('w', place, bytes, size);
    return ended(what, syscall(SYS_pwrite64, file, bytes, size, place));
}

int fdatasync(int file) {
    enum action what = next(SYNC);
    if (what == ERROR)
        return -1;
    int got = syscall(SYS_fdatasync, file);
    note('s', 0, NULL, 0);
    return ended(what, got);
}

ssize_t read(int file, void *bytes, size_t size) {
    enum action what = file == 0 ? next(READ) : NONE;
    return what == ERROR ? -1 : ended(what, syscall(SYS_read, file, bytes, part(what, size)));
}

ssize_t write(int file, const void *bytes, size_t size) {
    enum action what = file == 1 ? next(WRITE) : NONE;
    if (what == ERROR)
        return -1;
    ssize_t got = syscall(SYS_write, file, bytes, part(what, size));
    if (file == 1 && got > 0)
        note('o', 0, NULL, got);
    return ended(what, got);
}

void *malloc(size_t size) { return next(MEMORY) == ERROR ? NULL : __libc_malloc(size); }
void *realloc(void *old, size_t size) { return next(MEMORY) == ERROR ? NULL : __libc_realloc(old, size); }

int pthread_create(pthread_t *thread, const pthread_attr_t *how, void *(*run)(void *), void *given) {
    static int (*real)(pthread_t *, const pthread_attr_t *, void *(*)(void *), void *);
    if (!real)
        *(void **)&real = dlsym(RTLD_NEXT, "pthread_create");
    return next(THREAD) == ERROR ? EAGAIN : real(thread, how, run, given);
}
