/*
 * Records what QEMU does with userfaultfd: to be preloaded into the target, and harmless in the source.
 *
 * RECORD_PIPE is the pipe to which the guest's port and QEMU's trace go as well, so all that this process tells is in one
 * order. RECORD_RAM is the length of the guest's memory, by which its range is known; RECORD_BASE and RECORD_PAGES are the
 * window. RECORD_CONTENTS is the file for the contents of pages, one after another. With RECORD_EARLY=N the N-th page that is
 * waited for is open to the guest 0.2 s before its contents are there, as by a pager with a fault. With RECORD_LINGER=N a
 * process that ends with an error ends N ms later, as on a busy machine. The lines are
 *
 *     uffd guard START LENGTH      memory from START on is guarded
 *     uffd have PAGE INDEX         a page of the window was there when it was guarded, and its contents
 *     uffd fault PAGE THREAD       a fault in the window was read
 *     uffd place PAGE INDEX        contents were put in place; a huge page is told as the pages of 4 KiB that it has
 *     uffd zero PAGE               zeros were put in place
 *     uffd refused PAGE ERRNO      they were not
 *     uffd early PAGE              a page was opened too early
 *
 * A placement is made without a wake, then told, and then woken; and it is made and told under the lock that the guest's bytes
 * take. So a look of the guest that comes behind the placement in the pipe came behind it in fact, and one before, before.
 *
 * The library is built here and preloaded into QEMUs that bring their own C library, from 2.28 on: so it takes dlsym by the name
 * that all of them have, and calls nothing that is newer.
 */
#define _GNU_SOURCE
#include <dlfcn.h>
#include <errno.h>
#include <fcntl.h>
#include <linux/userfaultfd.h>
#include <pthread.h>
#include <stdarg.h>
#include <stdint.h>
#include <stdio.h>
#include <stdlib.h>
#include <string.h>
#include <sys/ioctl.h>
#include <sys/stat.h>
#include <sys/uio.h>
#include <unistd.h>
#include "preload.h"

#if defined __x86_64__ && defined __GLIBC__
__asm__(".symver dlsym, dlsym@GLIBC_2.2.5");
#endif

#define DESCRIPTORS 1024

enum use { UNKNOWN, GUEST, USERFAULT, OTHER };

pthread_mutex_t lock = PTHREAD_MUTEX_INITIALIZER;
int pipe_end = -1;
uint64_t ram, base, pages;
static int contents_file = -1, page_map = -1;
static uint64_t pipe_inode;
static uint64_t window; /* where the window is in this process, 0 before it is guarded */
static long stored, early, linger;
static char use_of[DESCRIPTORS], is_waited_for[MOST_PAGES];

static int (*real_ioctl)(int, unsigned long, ...);
static ssize_t (*real_read)(int, void *, size_t);
static ssize_t (*real_writev)(int, const struct iovec *, int);
static int (*real_close)(int);
static void (*real_exit)(int) __attribute__((noreturn));

uint64_t number(const char *name)
{
    uint64_t value = 0;
    for (const char *text = getenv(name); text && *text >= '0' && *text <= '9'; text++)
        value = value * 10 + (uint64_t)(*text - '0');
    return value;
}

/* Whether a descriptor is a pipe, and its inode. */
static int is_pipe(int fd, uint64_t *inode)
{
    struct statx found;
    if (statx(fd, "", AT_EMPTY_PATH, STATX_TYPE | STATX_INO, &found))
        return 0;
    *inode = found.stx_ino;
    return S_ISFIFO(found.stx_mode);
}

__attribute__((constructor)) static void begin(void)
{
    real_ioctl = dlsym(RTLD_NEXT, "ioctl");
    real_read = dlsym(RTLD_NEXT, "read");
    real_writev = dlsym(RTLD_NEXT, "writev");
    real_close = dlsym(RTLD_NEXT, "close");
    real_exit = dlsym(RTLD_NEXT, "exit");
    const char *path = getenv("RECORD_PIPE"), *contents = getenv("RECORD_CONTENTS");
    if (!path || !contents)
        return;
    pipe_end = open(path, O_WRONLY | O_CLOEXEC);
    contents_file = open(contents, O_WRONLY | O_CREAT | O_TRUNC | O_CLOEXEC, 0666);
    page_map = open("/proc/self/pagemap", O_RDONLY | O_CLOEXEC);
    if (pipe_end < 0 || contents_file < 0 || page_map < 0 || !is_pipe(pipe_end, &pipe_inode)) {
        perror("preload");
        exit(1);
    }
    ram = number("RECORD_RAM");
    base = number("RECORD_BASE");
    pages = number("RECORD_PAGES") < MOST_PAGES ? number("RECORD_PAGES") : MOST_PAGES;
    early = number("RECORD_EARLY");
    linger = number("RECORD_LINGER");
}

static int is_known(int fd, enum use use)
{
    return fd >= 0 && fd < DESCRIPTORS && (enum use)use_of[fd] == use;
}

/* The page of the window at an address, or -1. */
static long page_at(uint64_t address)
{
    return window && address >= window && (address - window) / PAGE < pages ? (long)((address - window) / PAGE) : -1;
}

static long store(const void *contents)
{
    if (write(contents_file, contents, PAGE) != (ssize_t)PAGE) {
        perror("preload: contents");
        abort();
    }
    return stored++;
}

int is_present(const void *address)
{
    uint64_t entry = 0;
    return pread(page_map, &entry, 8, (uintptr_t)address / PAGE * 8) == 8 && entry >> 62; /* present, or swapped */
}

/* Tells of a page that is in place. */
static void tell_page(const char *how, long page, const void *contents)
{
    if (contents)
        dprintf(pipe_end, "uffd %s %ld %ld\n", how, page, store(contents));
    else
        dprintf(pipe_end, "uffd zero %ld\n", page);
    if (heard_page)
        heard_page(page, contents);
}

/* The pages of the window that are there, once it is guarded. */
static void tell_present(void)
{
    for (uint64_t page = 0; page < pages; page++)
        if (is_present((void *)(window + page * PAGE)))
            tell_page("have", page, (void *)(window + page * PAGE));
}

static int guard(int fd, unsigned long request, struct uffdio_register *what)
{
    pthread_mutex_lock(&lock);
    int answer = real_ioctl(fd, request, what), error = errno;
    if (answer == 0) {
        dprintf(pipe_end, "uffd guard %llx %llx\n", what->range.start, what->range.len);
        if (what->range.len == ram) {
            window = what->range.start + base;
            tell_present();
        }
    }
    pthread_mutex_unlock(&lock);
    errno = error;
    return answer;
}

/* The fault that can be put in here: the page is open to the guest before its contents are there. */
static int place_too_early(int fd, struct uffdio_copy *copy, long page)
{
    struct uffdio_zeropage zeros = {{copy->dst, copy->len}, 0, 0};
    real_ioctl(fd, UFFDIO_ZEROPAGE, &zeros);
    usleep(200000);
    memcpy((void *)copy->dst, (void *)copy->src, copy->len);
    pthread_mutex_lock(&lock);
    dprintf(pipe_end, "uffd early %ld\n", page);
    tell_page("place", page, (void *)copy->src);
    pthread_mutex_unlock(&lock);
    copy->copy = copy->len;
    return 0;
}

/* Tells what became of the placement of a page of 4 KiB, where it is one of the window. */
static void tell_placement(long page, int answer, int error, const void *contents)
{
    if (page < 0)
        return;
    if (answer)
        dprintf(pipe_end, "uffd refused %ld %d\n", page, error);
    else
        tell_page("place", page, contents);
}

/* Makes a placement of one page, which may be a huge one, tells it, and wakes who waits. `contents` is NULL for zeros. */
static int place(int fd, unsigned long request, void *what, struct uffdio_range range, const char *contents)
{
    long page = page_at(range.start);
    if (early > 0 && page >= 0 && contents && range.len == PAGE && is_waited_for[page] && --early == 0)
        return place_too_early(fd, what, page);
    pthread_mutex_lock(&lock);
    int answer = real_ioctl(fd, request, what), error = errno;
    for (uint64_t at = 0; at < range.len; at += PAGE)
        tell_placement(page_at(range.start + at), answer, error, contents ? contents + at : NULL);
    pthread_mutex_unlock(&lock);
    if (answer == 0)
        real_ioctl(fd, UFFDIO_WAKE, &range);
    errno = error;
    return answer;
}

int ioctl(int fd, unsigned long request, ...)
{
    va_list words;
    va_start(words, request);
    void *what = va_arg(words, void *);
    va_end(words);
    if (pipe_end < 0)
        return real_ioctl(fd, request, what);
    if (request == UFFDIO_API && fd < DESCRIPTORS)
        use_of[fd] = USERFAULT;
    if (request == UFFDIO_REGISTER)
        return guard(fd, request, what);
    if (request == UFFDIO_COPY) {
        struct uffdio_copy *copy = what;
        copy->mode |= UFFDIO_COPY_MODE_DONTWAKE;
        return place(fd, request, copy, (struct uffdio_range){copy->dst, copy->len}, (const char *)copy->src);
    }
    if (request == UFFDIO_ZEROPAGE) {
        struct uffdio_zeropage *zero = what;
        zero->mode |= UFFDIO_ZEROPAGE_MODE_DONTWAKE;
        return place(fd, request, zero, zero->range, NULL);
    }
    return real_ioctl(fd, request, what);
}

static void tell_fault(const struct uffd_msg *message)
{
    long page = page_at(message->arg.pagefault.address);
    if (message->event != UFFD_EVENT_PAGEFAULT || page < 0)
        return;
    pthread_mutex_lock(&lock);
    is_waited_for[page] = 1;
    dprintf(pipe_end, "uffd fault %ld %u\n", page, message->arg.pagefault.feat.ptid);
    if (heard_fault)
        heard_fault(page, message->arg.pagefault.feat.ptid);
    pthread_mutex_unlock(&lock);
}

ssize_t read(int fd, void *into, size_t length)
{
    ssize_t got = real_read(fd, into, length);
    if (is_known(fd, USERFAULT))
        for (ssize_t at = 0; at + (ssize_t)sizeof(struct uffd_msg) <= got; at += sizeof(struct uffd_msg))
            tell_fault((const struct uffd_msg *)((char *)into + at));
    return got;
}

/* Whether what is written there is the guest's: its port goes to the pipe. */
static int is_guests(int fd)
{
    uint64_t inode;
    if (is_known(fd, UNKNOWN))
        use_of[fd] = is_pipe(fd, &inode) && inode == pipe_inode ? GUEST : OTHER;
    return is_known(fd, GUEST);
}

ssize_t writev(int fd, const struct iovec *parts, int count)
{
    if (pipe_end < 0 || !is_guests(fd))
        return real_writev(fd, parts, count);
    pthread_mutex_lock(&lock);
    ssize_t answer = real_writev(fd, parts, count);
    int error = errno;
    pthread_mutex_unlock(&lock);
    errno = error;
    return answer;
}

int close(int fd)
{
    if (fd >= 0 && fd < DESCRIPTORS)
        use_of[fd] = UNKNOWN;
    return real_close(fd);
}

void exit(int status)
{
    if (status)
        usleep(linger * 1000);
    real_exit(status);
}
