/*
 * The process that is moved: its threads walk over a window of pages, and tell each access in a file.
 *
 *     walk LOG GATE PAGES WORDS THREADS PACE WRITES RELEASES AHEAD
 *
 * A thread rests a millisecond behind PACE visits. Of 64 visits WRITES are writes, and RELEASES give the page up, as long as GATE is
 * empty. AHEAD give up the second page of the first two that are absent: at the target, a page of what is on its way there. The lines
 * are
 *
 *     g THREAD w PAGE CELL VALUE   wrote, VALUE in hexadecimal
 *     g THREAD r PAGE CELL VALUE   read
 *     g THREAD m PAGE              the page is absent, and the thread is about to wait for it
 *     g THREAD z PAGE              the page is about to be given up
 *
 * Each line is one write to a file that is open for appending, so the file has an order. An access, and a look at whether its page
 * is there, are made and told under a lock of LOG, which whoever puts pages in place takes too: a page that is there at the look was
 * told before. All that a thread does but waiting for a page is under a lock of GATE: who holds that stops the threads between
 * accesses, wherever they are frozen then.
 *
 * Nobody waits for a page under a lock: of the window none is used there that is absent, and all other memory is locked, which CRIU
 * moves with the process's state and not lazily.
 */
#define _GNU_SOURCE
#include <errno.h>
#include <fcntl.h>
#include <pthread.h>
#include <stdint.h>
#include <stdio.h>
#include <stdlib.h>
#include <sys/file.h>
#include <sys/mman.h>
#include <sys/stat.h>
#include <unistd.h>

#define BASE 0x100000000000UL /* far from all else, wherever that is put */
#define PAGE 4096UL
#define STACK (64 * 1024)
#define MOST_PAGES 65536

static pthread_mutex_t mutex = PTHREAD_MUTEX_INITIALIZER; /* threads of one process share its locks of files */
static int told, gate;
static unsigned pages, words, threads, pace, writes, releases, ahead;
static unsigned char is_there[MOST_PAGES], was_given_up[MOST_PAGES];

static void need(int is_well, const char *what)
{
    if (!is_well) {
        perror(what);
        _exit(1);
    }
}

static void lock(int file)
{
    while (flock(file, LOCK_EX))
        need(errno == EINTR, "walk: lock");
}

static void enter(void)
{
    pthread_mutex_lock(&mutex);
    lock(gate);
}

static void leave(void)
{
    flock(gate, LOCK_UN);
    pthread_mutex_unlock(&mutex);
}

static void tell(const char *line, int length)
{
    need(write(told, line, length) == length, "walk: log");
}

static void tell_page(unsigned thread, char what, unsigned page)
{
    char line[64];
    tell(line, snprintf(line, sizeof line, "g %u %c %u\n", thread, what, page));
}

static void *page_at(unsigned page)
{
    return (void *)(BASE + page * PAGE);
}

static int is_present(unsigned page)
{
    need(mincore(page_at(page), PAGE, &is_there[page]) == 0, "walk: mincore");
    return is_there[page] & 1;
}

static void visit(unsigned thread, unsigned page, unsigned cell, int is_write, uint64_t value)
{
    volatile uint64_t *at = (volatile uint64_t *)page_at(page) + cell;
    char line[64];
    for (;;) {
        enter();
        lock(told);
        if (is_present(page))
            break;
        tell_page(thread, 'm', page);
        flock(told, LOCK_UN);
        leave();
        (void)*at; /* waits where the page is absent */
    }
    if (is_write)
        *at = value;
    else
        value = *at;
    tell(line, snprintf(line, sizeof line, "g %u %c %u %u %016lx\n", thread, is_write ? 'w' : 'r', page, cell, value));
    flock(told, LOCK_UN);
    leave();
}

static void release(unsigned thread, unsigned page)
{
    struct stat found;
    enter();
    if (fstat(gate, &found) == 0 && found.st_size == 0) {
        tell_page(thread, 'z', page);
        need(madvise(page_at(page), PAGE, MADV_DONTNEED) == 0, "walk: madvise");
        was_given_up[page] = 1;
    }
    leave();
}

static void release_ahead(unsigned thread)
{
    unsigned page = 1;
    need(mincore(page_at(0), pages * PAGE, is_there) == 0, "walk: mincore");
    while (page < pages && (is_there[page - 1] & 1 || is_there[page] & 1 || was_given_up[page - 1] || was_given_up[page]))
        page++;
    if (page < pages)
        release(thread, page);
}

static void *walk(void *which)
{
    unsigned thread = (unsigned)(uintptr_t)which;
    uint64_t x = 0x9e3779b97f4a7c15u * (thread + 1);
    for (unsigned visits = 1;; visits++) {
        x ^= x << 13;
        x ^= x >> 7;
        x ^= x << 17;
        unsigned page = (x >> 20) % pages, what = x >> 58, cell = (x >> 44) % words;
        if (what < writes)
            visit(thread, page, cell, 1, x);
        else if (what < writes + releases)
            release(thread, page);
        else if (what < writes + releases + ahead)
            release_ahead(thread);
        else
            visit(thread, page, cell, 0, 0);
        if (visits % pace == 0)
            usleep(1000);
    }
    return NULL;
}

int main(int count, char **names)
{
    need(count == 10, "walk: LOG GATE PAGES WORDS THREADS PACE WRITES RELEASES AHEAD");
    told = open(names[1], O_WRONLY | O_APPEND);
    gate = open(names[2], O_RDONLY);
    pages = atoi(names[3]), words = atoi(names[4]), threads = atoi(names[5]);
    pace = atoi(names[6]), writes = atoi(names[7]), releases = atoi(names[8]), ahead = atoi(names[9]);
    need(pages <= MOST_PAGES && told >= 0 && gate >= 0, "walk: files");
    need(mlockall(MCL_CURRENT | MCL_FUTURE) == 0, "walk: mlockall");
    need(mmap(page_at(0), pages * PAGE, PROT_READ | PROT_WRITE, MAP_PRIVATE | MAP_ANONYMOUS | MAP_FIXED_NOREPLACE, -1, 0) == page_at(0), "walk: mmap");
    need(munlock(page_at(0), pages * PAGE) == 0, "walk: munlock");
    madvise(page_at(0), pages * PAGE, MADV_NOHUGEPAGE);
    for (unsigned page = 0; page < pages; page++)
        *(volatile uint64_t *)page_at(page) = 0; /* there, and of zeros: so it begins in the session too */
    for (unsigned page = 0; page < pages; page++)
        visit(0, page, page % words, 1, page * 0x0101010101010101u + 1);
    pthread_attr_t small;
    need(pthread_attr_init(&small) == 0 && pthread_attr_setstacksize(&small, STACK) == 0, "walk: stack");
    for (unsigned thread = 1; thread < threads; thread++) {
        pthread_t made;
        need(pthread_create(&made, &small, walk, (void *)(uintptr_t)thread) == 0, "walk: thread");
    }
    walk(0);
}
