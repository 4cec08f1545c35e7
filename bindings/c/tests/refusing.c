/* Stands before the system's calls, by LD_PRELOAD, and lets them fail. REFUSING is '-', or '<call> <first> <last> <how>': of the
   calls of malloc and realloc ('memory'), read, write, open or pthread_create ('thread'), those with these numbers, from 1 on, answer

       memory   no memory
       short    as asked, for one byte
       none     nothing, as at an end
       <n>      the error with this number

   Or REFUSING is 'told', and the program itself says which growths fail. A line 'refuse <name> <n>' that it writes to standard
   output begins a count of malloc and realloc, of which number n fails, or none for 0; after 'refuse <name> <n> on' each later
   one fails too. The next line that it writes ends the count: ahead of it goes a line 'growths <all> refused <failed>', and the
   next byte that it reads of standard input is 1 where one failed, and else 0.

   SWAPPED names a file: where the program makes a file that was not there, a link to this one takes its place at once, as somebody who
   may write to the folder could do it.

   Calls of all threads are counted together. At the end it writes, to descriptor 99, how many calls of each there were, and how
   many of them were refused. */
#define _GNU_SOURCE
#include <dlfcn.h>
#include <errno.h>
#include <fcntl.h>
#include <limits.h>
#include <pthread.h>
#include <stdarg.h>
#include <stdio.h>
#include <stdlib.h>
#include <string.h>
#include <unistd.h>

enum { MEMORY, READ, WRITE, OPEN, THREAD, CALLS };
enum { WHOLE, SHORT = -1, NONE = -2 };

static const char *const names[CALLS] = {"memory", "read", "write", "open", "thread"};
static _Atomic long count[CALLS], refused;
static long first, last;
static const char *swapped;
static int chosen = CALLS, how;
static _Atomic int running;

/* Where the program says which growths fail: whether it does, whether it counts, and what was counted before. */
static int told;
static _Atomic int counting;
static _Atomic long counted, failed;

static void *(*real_malloc)(size_t);
static void *(*real_realloc)(void *, size_t);
static ssize_t (*real_read)(int, void *, size_t);
static ssize_t (*real_write)(int, const void *, size_t);
static int (*real_open)(const char *, int, ...);
static int (*real_pthread_create)(pthread_t *, const pthread_attr_t *, void *(*)(void *), void *);

static void find(void *at, const char *name) {
    void *found = dlsym(RTLD_NEXT, name);
    if (!found) abort();
    memcpy(at, &found, sizeof found);
}

__attribute__((constructor)) static void begin(void) {
    char call[16] = "", kind[16] = "";
    const char *words = getenv("REFUSING");
    swapped = getenv("SWAPPED");
    find(&real_malloc, "malloc");
    find(&real_realloc, "realloc");
    find(&real_read, "read");
    find(&real_write, "write");
    find(&real_open, "open");
    find(&real_pthread_create, "pthread_create");
    if (words && sscanf(words, "%15s %ld %ld %15s", call, &first, &last, kind) == 4) {
        for (chosen = 0; chosen < CALLS && strcmp(call, names[chosen]); chosen++) {}
        how = !strcmp(kind, "short") ? SHORT : !strcmp(kind, "none") ? NONE : !strcmp(kind, "memory") ? ENOMEM : atoi(kind);
        if (chosen == CALLS) abort();
    }
    told = words && !strcmp(words, "told");
    if (told) how = ENOMEM;
    running = 1;
}

static void tell(void) {
    char line[128];
    running = 0;
    int len = snprintf(line, sizeof line, "%ld %ld %ld %ld %ld %ld\n", count[0], count[1], count[2], count[3], count[4], refused);
    if (real_write(99, line, (size_t)len) < 0) errno = 0;
}

/* A program that may start threads ends by this call, and no destructor is run then. */
__attribute__((noreturn)) void _exit(int status) {
    __attribute__((noreturn)) void (*real_exit)(int);
    if (running) tell();
    find(&real_exit, "_exit");
    real_exit(status);
}

/* Any other program ends with its destructors. */
__attribute__((destructor)) static void end(void) {
    if (running) tell();
}

/* What is to become of a call of this kind. */
static int fate(int call) {
    if (!running) return WHOLE;
    long number = ++count[call];
    if (call != chosen || number < first || number > last) return WHOLE;
    refused++;
    return how;
}

void *malloc(size_t size) {
    if (!real_malloc) find(&real_malloc, "malloc");
    if (fate(MEMORY) == WHOLE) return real_malloc(size);
    errno = ENOMEM;
    return NULL;
}

void *realloc(void *at, size_t size) {
    if (!real_realloc) find(&real_realloc, "realloc");
    if (fate(MEMORY) == WHOLE) return real_realloc(at, size);
    errno = ENOMEM;
    return NULL;
}

/* Ends a count, and tells it. */
static void end_count(void) {
    char line[64];
    long growths = count[MEMORY] - counted;
    counting = 0;
    chosen = CALLS;
    failed = refused - failed;
    int len = snprintf(line, sizeof line, "growths %ld refused %ld\n", growths, failed);
    if (real_write(1, line, (size_t)len) < 0) errno = 0;
}

/* Begins a count where a line says so. */
static void begin_count(const char *line, size_t len) {
    char text[256], name[128], more[8] = "";
    long number;
    if (len >= sizeof text) return;
    memcpy(text, line, len);
    text[len] = 0;
    if (sscanf(text, "refuse %127s %ld %7s", name, &number, more) < 2) return;
    counted = count[MEMORY];
    failed = refused;
    first = number ? counted + number : 0;
    last = number && !strcmp(more, "on") ? LONG_MAX : first;
    counting = 1;
    chosen = MEMORY;
}

/* The bytes of a read or a write, or an error. */
static ssize_t moved(int met, size_t len, size_t *asked) {
    *asked = met == SHORT && len ? 1 : len;
    if (met == NONE) return 0;
    if (met > 0) return errno = met, -1;
    return 1;
}

ssize_t read(int fd, void *into, size_t len) {
    if (told && fd == 0 && len) return *(char *)into = failed ? '1' : '0', 1;
    size_t asked;
    ssize_t met = moved(fate(READ), len, &asked);
    return met <= 0 ? met : real_read(fd, into, asked);
}

ssize_t write(int fd, const void *from, size_t len) {
    size_t asked;
    if (told && fd == 1 && counting) end_count();
    ssize_t met = moved(fate(WRITE), len, &asked);
    ssize_t written = met <= 0 ? met : real_write(fd, from, asked);
    if (told && fd == 1) begin_count(from, len);
    return written;
}

int open(const char *name, int flags, ...) {
    va_list more;
    va_start(more, flags);
    mode_t mode = flags & O_CREAT ? va_arg(more, mode_t) : 0;
    va_end(more);
    int met = fate(OPEN);
    if (met > 0) return errno = met, -1;
    int file = real_open(name, flags, mode), error = errno;
    if (file >= 0 && (flags & O_EXCL) && swapped && (unlink(name) || symlink(swapped, name))) abort();
    return errno = error, file;
}

int pthread_create(pthread_t *thread, const pthread_attr_t *how, void *(*body)(void *), void *given) {
    int met = fate(THREAD);
    return met > 0 ? met : real_pthread_create(thread, how, body, given);
}
