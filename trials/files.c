// What may befall a process between two of its calls for files, where it is loaded before a program. The calls are counted from 1 on:
// those that open, make, look at, read, write, sync, move, list and take away. CALLS is a file that exists, of eight bytes, in which
// the count stands.
// CUT=N ends the process in the call of the number N, which has written half of its bytes if it writes.
// GONE=N moves the folder PLACE to AWAY before that call, and moves what is at INSTEAD to PLACE, if that is told. BACK=M moves both
// back before the call of the number M.
#define _GNU_SOURCE
#include <dlfcn.h>
#include <fcntl.h>
#include <signal.h>
#include <stdarg.h>
#include <stdatomic.h>
#include <stdio.h>
#include <stdlib.h>
#include <sys/mman.h>
#include <sys/stat.h>
#include <unistd.h>

static atomic_long own, *calls = &own;
static long cut, gone, back;
static const char *place, *away, *instead;
static int (*next_rename)(const char *, const char *);
static ssize_t (*next_write)(int, const void *, size_t);

static long number_of(const char *name) {
    const char *text = getenv(name);
    return text ? atol(text) : 0;
}

__attribute__((constructor)) static void begin(void) {
    const char *path = getenv("CALLS");
    int (*next_open)(const char *, int, ...) = dlsym(RTLD_NEXT, "open");
    int file = path ? next_open(path, O_RDWR) : -1;
    next_rename = dlsym(RTLD_NEXT, "rename");
    next_write = dlsym(RTLD_NEXT, "write");
    cut = number_of("CUT"), gone = number_of("GONE"), back = number_of("BACK");
    place = getenv("PLACE"), away = getenv("AWAY"), instead = getenv("INSTEAD");
    if (file >= 0) {
        void *shared = mmap(NULL, sizeof own, PROT_READ | PROT_WRITE, MAP_SHARED, file, 0);
        if (shared != MAP_FAILED) calls = shared;
        close(file);
    }
    atomic_store(calls, 0);
}

// What happens before a call of the program: the number of the call.
static long before(void) {
    long number = atomic_fetch_add(calls, 1) + 1;
    if (number == gone) {
        next_rename(place, away);
        if (instead) next_rename(instead, place);
    }
    if (number == back) {
        if (instead) next_rename(place, instead);
        next_rename(away, place);
    }
    return number;
}

static void end_if(int is_cut) {
    if (is_cut) kill(getpid(), SIGKILL);
}

// A call that is counted, and handed on.
#define HANDED_ON(type, name, parameters, arguments) \
    type name parameters { \
        static type(*next) parameters; \
        if (next == NULL) next = dlsym(RTLD_NEXT, #name); \
        end_if(before() == cut); \
        return next arguments; \
    }

HANDED_ON(int, mkdir, (const char *path, mode_t mode), (path, mode))
HANDED_ON(int, rename, (const char *from, const char *to), (from, to))
HANDED_ON(int, unlink, (const char *path), (path))
HANDED_ON(int, fsync, (int file), (file))
HANDED_ON(int, close, (int file), (file))
HANDED_ON(ssize_t, getdents64, (int file, void *into, size_t size), (file, into, size))
HANDED_ON(int, statx, (int folder, const char *path, int flags, unsigned mask, struct statx *into), (folder, path, flags, mask, into))

int openat(int folder, const char *path, int flags, ...) {
    static int (*next)(int, const char *, int, ...);
    va_list rest;
    va_start(rest, flags);
    mode_t mode = flags & O_CREAT ? va_arg(rest, mode_t) : 0;
    va_end(rest);
    if (next == NULL) next = dlsym(RTLD_NEXT, "openat");
    end_if(before() == cut);
    return next(folder, path, flags, mode);
}

int open(const char *path, int flags, ...) {
    static int (*next)(const char *, int, ...);
    va_list rest;
    va_start(rest, flags);
    mode_t mode = flags & O_CREAT ? va_arg(rest, mode_t) : 0;
    va_end(rest);
    if (next == NULL) next = dlsym(RTLD_NEXT, "open");
    end_if(before() == cut);
    return next(path, flags, mode);
}

// The standard streams are no files here.
ssize_t read(int file, void *into, size_t size) {
    static ssize_t (*next)(int, void *, size_t);
    if (next == NULL) next = dlsym(RTLD_NEXT, "read");
    if (file > 2) end_if(before() == cut);
    return next(file, into, size);
}

ssize_t write(int file, const void *from, size_t size) {
    if (file <= 2) return next_write(file, from, size);
    if (before() != cut) return next_write(file, from, size);
    next_write(file, from, size / 2);
    end_if(1);
    return -1;
}
