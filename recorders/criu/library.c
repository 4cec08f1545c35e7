/*
 * Tells what `criu lazy-pages` does with userfaultfd and with its connection to the page server: to be preloaded into it.
 *
 * RECORD_LOG is the file in which the process that is moved tells its accesses, so the order of both is that of one file.
 * RECORD_PAGES is the file for the contents of pages, one after another; RECORD_SOCKET the descriptor of the connection. With
 * RECORD_EARLY=N the N-th page that is put in place for a fault, in RECORD_PROCESS, is open to it 0.2 s before its contents are there,
 * as by a pager with a fault. The lines are
 *
 *     p fault ADDRESS            a fault was read
 *     p remove START END         a message was read that the process gives these pages up
 *     p up BYTES                 these bytes are about to be sent to the page server
 *     p down COUNT               so many bytes were taken from it by now, in all
 *     p place ADDRESS INDEX      contents were put in place
 *     p zero ADDRESS             zeros were put in place
 *     p refused ADDRESS LENGTH ERRNO   contents or zeros were not put in place
 *     p early ADDRESS            a page was opened too early
 *     p end                      the guard was given up: what is absent is zeros from here on
 *
 * with numbers in hexadecimal, but INDEX, COUNT and ERRNO. A placement is made without a wake and told under a lock of the file, which
 * a look of the process takes too, and woken after it. So a look that comes behind it in the file came behind it in fact.
 */
#define _GNU_SOURCE
#include <dlfcn.h>
#include <errno.h>
#include <fcntl.h>
#include <linux/userfaultfd.h>
#include <stdarg.h>
#include <stdint.h>
#include <stdio.h>
#include <stdlib.h>
#include <string.h>
#include <sys/file.h>
#include <sys/ioctl.h>
#include <sys/socket.h>
#include <sys/uio.h>
#include <unistd.h>

#define PAGE 4096UL
#define HIGH 900 /* CRIU's own descriptors are below, or made by it above a thousand */

static int told = -1, contents_file = -1, connection = -1;
static long stored, early;
static unsigned long taken;
static uint64_t waited_for; /* the page of the last fault */
static pid_t process;

static int (*real_ioctl)(int, unsigned long, ...);
static int (*real_close)(int);
static ssize_t (*real_read)(int, void *, size_t);
static ssize_t (*real_send)(int, const void *, size_t, int);
static ssize_t (*real_recv)(int, void *, size_t, int);

static long number(const char *name)
{
    const char *text = getenv(name);
    return text ? strtol(text, NULL, 0) : 0;
}

static int opened(const char *path, int flags)
{
    int file = open(path, flags | O_WRONLY | O_CLOEXEC, 0666), high = fcntl(file, F_DUPFD_CLOEXEC, HIGH);
    if (high < 0) {
        perror("library: files");
        _exit(1);
    }
    close(file);
    return high;
}

__attribute__((constructor)) static void begin(void)
{
    real_ioctl = dlsym(RTLD_NEXT, "ioctl");
    real_close = dlsym(RTLD_NEXT, "close");
    real_read = dlsym(RTLD_NEXT, "read");
    real_send = dlsym(RTLD_NEXT, "send");
    real_recv = dlsym(RTLD_NEXT, "recv");
    const char *log = getenv("RECORD_LOG"), *contents = getenv("RECORD_PAGES");
    if (!log || !contents)
        return;
    contents_file = opened(contents, O_CREAT | O_TRUNC);
    told = opened(log, O_APPEND);
    connection = number("RECORD_SOCKET");
    early = number("RECORD_EARLY");
    process = number("RECORD_PROCESS");
}

static void put(int file, const void *bytes, ssize_t length)
{
    if (write(file, bytes, length) != length) {
        perror("library: log");
        abort();
    }
}

/* Takes the lock of the file, also where a signal interrupts the wait for it. */
static void lock(void)
{
    while (flock(told, LOCK_EX))
        if (errno != EINTR) {
            perror("library: lock");
            abort();
        }
}

static void unlock(void) { flock(told, LOCK_UN); }

__attribute__((format(printf, 1, 2))) static void tell(const char *format, ...)
{
    char line[256];
    va_list values;
    va_start(values, format);
    put(told, line, vsnprintf(line, sizeof line, format, values));
    va_end(values);
}

static long store(uint64_t contents)
{
    put(contents_file, (const void *)contents, PAGE);
    return stored++;
}

static void tell_placed(uint64_t start, uint64_t length, uint64_t contents)
{
    for (uint64_t at = 0; at < length; at += PAGE)
        if (contents)
            tell("p place %lx %ld\n", start + at, store(contents + at));
        else
            tell("p zero %lx\n", start + at);
}

/* The fault that can be put in here: the page is open to the process before its contents are there. */
static int place_too_early(int fd, struct uffdio_copy *copy)
{
    struct uffdio_zeropage zeros = {{copy->dst, copy->len}, 0, 0};
    struct iovec from = {(void *)copy->src, copy->len}, to = {(void *)copy->dst, copy->len};
    real_ioctl(fd, UFFDIO_ZEROPAGE, &zeros);
    usleep(200000);
    lock();
    if (process_vm_writev(process, &from, 1, &to, 1, 0) < 0)
        perror("library: early");
    tell("p early %llx\n", copy->dst);
    tell_placed(copy->dst, copy->len, copy->src);
    unlock();
    copy->copy = copy->len;
    return 0;
}

/* Makes a placement, tells of each page of it, and wakes who waits. `done` is where the kernel says how much it placed. */
static int place(int fd, unsigned long request, void *what, struct uffdio_range range, uint64_t contents, const __s64 *done)
{
    lock();
    int answer = real_ioctl(fd, request, what), error = errno;
    uint64_t placed = answer == 0 ? range.len : *done > 0 ? (uint64_t)*done : 0;
    tell_placed(range.start, placed, contents);
    if (answer)
        tell("p refused %llx %llx %d\n", range.start + placed, range.len - placed, error);
    unlock();
    if (placed) {
        range.len = placed;
        real_ioctl(fd, UFFDIO_WAKE, &range);
    }
    errno = error;
    return answer;
}

int ioctl(int fd, unsigned long request, ...)
{
    va_list words;
    va_start(words, request);
    void *what = va_arg(words, void *);
    va_end(words);
    if (told >= 0 && request == UFFDIO_COPY) {
        struct uffdio_copy *copy = what;
        if (early > 0 && copy->len == PAGE && copy->dst == waited_for && --early == 0)
            return place_too_early(fd, copy);
        copy->mode |= UFFDIO_COPY_MODE_DONTWAKE;
        return place(fd, request, copy, (struct uffdio_range){copy->dst, copy->len}, copy->src, &copy->copy);
    }
    if (told >= 0 && request == UFFDIO_ZEROPAGE) {
        struct uffdio_zeropage *zeros = what;
        zeros->mode |= UFFDIO_ZEROPAGE_MODE_DONTWAKE;
        return place(fd, request, zeros, zeros->range, 0, &zeros->zeropage);
    }
    return real_ioctl(fd, request, what);
}

static int is_userfault(int fd)
{
    char path[40], name[64];
    snprintf(path, sizeof path, "/proc/self/fd/%d", fd);
    ssize_t length = readlink(path, name, sizeof name - 1);
    if (length < 0)
        return 0;
    name[length] = 0;
    return strstr(name, "userfaultfd") != NULL;
}

static void tell_message(const struct uffd_msg *message)
{
    if (message->event == UFFD_EVENT_PAGEFAULT) {
        waited_for = message->arg.pagefault.address & ~(PAGE - 1);
        tell("p fault %lx\n", waited_for);
    } else if (message->event == UFFD_EVENT_REMOVE || message->event == UFFD_EVENT_UNMAP)
        tell("p remove %llx %llx\n", message->arg.remove.start, message->arg.remove.end);
}

ssize_t read(int fd, void *into, size_t length)
{
    ssize_t got = real_read(fd, into, length);
    int error = errno;
    if (told >= 0 && got == (ssize_t)sizeof(struct uffd_msg) && is_userfault(fd))
        tell_message(into);
    errno = error;
    return got;
}

int close(int fd)
{
    if (told < 0 || !is_userfault(fd))
        return real_close(fd);
    lock();
    int answer = real_close(fd), error = errno;
    tell("p end\n");
    unlock();
    errno = error;
    return answer;
}

ssize_t send(int fd, const void *from, size_t length, int flags)
{
    if (told >= 0 && fd == connection) {
        char digits[2 * 64 + 1] = "";
        for (size_t at = 0; at < length && at < 64; at++)
            snprintf(digits + 2 * at, 3, "%02x", ((const unsigned char *)from)[at]);
        tell("p up %s\n", digits);
    }
    return real_send(fd, from, length, flags);
}

ssize_t recv(int fd, void *into, size_t length, int flags)
{
    ssize_t got = real_recv(fd, into, length, flags);
    int error = errno;
    if (told >= 0 && fd == connection && got > 0)
        tell("p down %lu\n", taken += got);
    errno = error;
    return got;
}
