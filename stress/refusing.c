// A library to be loaded before a program, which refuses calls of the system that the program makes. By these words of the environment:
//
//   REFUSED  the kind of call: memory, thread, open, read, write (to standard output) or tell (a write to standard error)
//   FIRST    the number of the first call of this kind that is refused, and
//   LAST     that of the last one; they count from 1, over all threads
//   HOW      `fails`; or `interrupted`, for a read or a write; or `halved`: it takes one byte, and the call is no longer counted as refused
//   BEHIND   where it stands, calls count from the first write to standard output on
//   COUNTED  a file, which gets at the end how many calls of this kind there were, and how many threads besides the first one are left
#define _GNU_SOURCE
#include <dirent.h>
#include <dlfcn.h>
#include <errno.h>
#include <fcntl.h>
#include <pthread.h>
#include <stdarg.h>
#include <stdatomic.h>
#include <stdio.h>
#include <stdlib.h>
#include <string.h>
#include <sys/syscall.h>
#include <unistd.h>

enum kind { NOTHING, MEMORY, THREAD, OPEN, READ, WRITE, TELL };

static const char *const WORDS[] = {"", "memory", "thread", "open", "read", "write", "tell"};

static enum kind kind = NOTHING;
static int error = EIO;
static int is_halved, is_behind;
static long first, last;
static atomic_long made;
static atomic_int begun;

static long number_of(const char *word) {
    const char *text = getenv(word);
    return text ? atol(text) : 0;
}

__attribute__((constructor)) static void begin(void) {
    const char *word = getenv("REFUSED"), *how = getenv("HOW");
    enum kind asked = NOTHING;
    for (enum kind it = MEMORY; word && it <= TELL; it++)
        if (!strcmp(word, WORDS[it]))
            asked = it;
    first = number_of("FIRST");
    last = number_of("LAST");
    is_halved = how && !strcmp(how, "halved");
    if (how && !strcmp(how, "interrupted"))
        error = EINTR;
    is_behind = getenv("BEHIND") != NULL;
    kind = asked;
}

// How many threads there are besides this one. One that has been joined may be seen for a moment.
static int threads_left(void) {
    int left = 0;
    for (int turn = 0; turn < 20; turn++) {
        DIR *tasks = opendir("/proc/self/task");
        left = -3; // two entries name the folder and the one above it
        while (tasks && readdir(tasks))
            left++;
        if (tasks)
            closedir(tasks);
        if (left <= 0)
            break;
        usleep(10000);
    }
    return left;
}

// The program ends by this call, wherever it ends.
void _exit(int status) {
    const char *path = getenv("COUNTED");
    kind = NOTHING;
    FILE *file = path ? fopen(path, "w") : NULL;
    if (file) {
        fprintf(file, "%ld %d\n", atomic_load(&made), threads_left());
        fclose(file);
    }
    for (;;)
        syscall(SYS_exit_group, status);
}

static int is_refused(enum kind of) {
    if (of == NOTHING || of != kind || (is_behind && !atomic_load(&begun)))
        return 0;
    long number = atomic_fetch_add(&made, 1) + 1;
    return first <= number && number <= last;
}

extern void *__libc_malloc(size_t);
extern void *__libc_calloc(size_t, size_t);
extern void *__libc_realloc(void *, size_t);
extern void *__libc_memalign(size_t, size_t);

static void *none(void) {
    errno = ENOMEM;
    return NULL;
}

void *malloc(size_t size) {
    return is_refused(MEMORY) ? none() : __libc_malloc(size);
}

void *calloc(size_t count, size_t size) {
    return is_refused(MEMORY) ? none() : __libc_calloc(count, size);
}

void *realloc(void *old, size_t size) {
    return is_refused(MEMORY) ? none() : __libc_realloc(old, size);
}

void *aligned_alloc(size_t alignment, size_t size) {
    return is_refused(MEMORY) ? none() : __libc_memalign(alignment, size);
}

int posix_memalign(void **place, size_t alignment, size_t size) {
    void *given = aligned_alloc(alignment, size);
    if (!given)
        return ENOMEM;
    *place = given;
    return 0;
}

int pthread_create(pthread_t *thread, const pthread_attr_t *how, void *(*start)(void *), void *given) {
    int (*real)(pthread_t *, const pthread_attr_t *, void *(*)(void *), void *) = dlsym(RTLD_NEXT, "pthread_create");
    return is_refused(THREAD) ? EAGAIN : real(thread, how, start, given);
}

int open(const char *path, int flags, ...) {
    va_list rest;
    va_start(rest, flags);
    int mode = flags & O_CREAT ? va_arg(rest, int) : 0;
    va_end(rest);
    if (is_refused(OPEN)) {
        errno = error;
        return -1;
    }
    return (int)syscall(SYS_openat, AT_FDCWD, path, flags, mode);
}

// Reads or writes, of which a refused one fails, or moves one byte.
static ssize_t moved(enum kind of, long call, int file, void *bytes, size_t size) {
    if (!is_refused(of))
        return syscall(call, file, bytes, size);
    if (is_halved)
        return syscall(call, file, bytes, size ? 1 : 0);
    errno = error;
    return -1;
}

ssize_t read(int file, void *bytes, size_t size) {
    return moved(READ, SYS_read, file, bytes, size);
}

ssize_t write(int file, const void *bytes, size_t size) {
    ssize_t written = moved(file == 1 ? WRITE : file == 2 ? TELL : NOTHING, SYS_write, file, (void *)bytes, size);
    if (file == 1)
        atomic_store(&begun, 1);
    return written;
}
