/*
 * Preloaded into the QEMU that a guest moves to: records the contents of what pre-copy left there, and of what is put in place.
 *
 *     POSTCOPY_PAGES        the folder of the target's files
 *     POSTCOPY_PAGES_KEY    the key of the hashes, as 32 hexadecimal digits
 *     POSTCOPY_PAGES_TRACK  1: pages are put in place write-protected, so that those to which nobody wrote are known at the end. The kernel
 *                           itself lets a write through (Linux 6.7)
 *
 * It records from the process's first UFFDIO_API on, so that a source with the same environment writes nothing. It ends no process and
 * holds none up: where it cannot record it says so on standard error, and the logs have no end. They have one if every page of every block
 * was there or came before the last guard was taken away.
 *
 * A page is hashed where memory is guarded, if it is there, or in the buffer that is put in place: the guest may write to the page itself
 * before the call returns. An absent page is never read.
 */
#define _GNU_SOURCE
#include "pages.h"

#include <dlfcn.h>
#include <errno.h>
#include <fcntl.h>
#include <linux/userfaultfd.h>
#include <pthread.h>
#include <stdarg.h>
#include <stdatomic.h>
#include <stdio.h>
#include <stdlib.h>
#include <string.h>
#include <sys/ioctl.h>
#include <unistd.h>
#include "postcopy_record.h"

#define WP_ASYNC (1 << 15) /* UFFD_FEATURE_WP_ASYNC, which older headers do not have */
#define IS_PROTECTED (UINT64_C(1) << 57) /* of an entry of a page map: write-protected by userfaultfd */
#define PART 256 /* pages that a thread takes at once */
#define FEW 4096 /* pages that are hashed sooner than other threads have begun and ended, on a machine with other work */
#define ENTRIES 4096

enum { ABSENT, LEFT, PLACED };                  /* a page */
enum { CLOSED, OPEN, BEGUN, LOST, ENDED }; /* the recording */
static _Atomic int stage; /* it changes under `lock` */
static pthread_mutex_t lock = PTHREAD_MUTEX_INITIALIZER;

static const char *folder;
static int is_tracking;
static postcopy_log *pager, *guest;
static struct blocks blocks;
static uint64_t guarded[MOST_BLOCKS]; /* bytes of each block, from its start on */
static uint8_t *states;               /* of each page .. */
static uint64_t *hashes;              /* .. and its hash, if it was left */
static uint32_t ready, is_resumed;
static _Atomic uint32_t newest; /* placement */
static pthread_t teller;
static int has_teller;

static int call(int fd, unsigned long request, void *what)
{
    static int (*real)(int, unsigned long, ...);
    if (!real)
        real = dlsym(RTLD_NEXT, "ioctl");
    return real(fd, request, what);
}

static void say(const char *what, int error)
{
    dprintf(STDERR_FILENO, "postcopy pages: %s: %s%s%s\n", folder, what, error ? ": " : "", error ? strerror(error) : "");
}

/* Ends the recording, and nothing else. */
static void lose(const char *what, int error)
{
    stage = LOST;
    say(what, error);
    say("this migration is not recorded", 0);
}

/* Says why a record was not written, if one was not. */
static int is_whole(void)
{
    int error = postcopy_log_error(pager) ? postcopy_log_error(pager) : postcopy_log_error(guest);
    if (error)
        lose("a record cannot be written", error);
    return !error;
}

static void open_recording(void)
{
    char name[NAME_LENGTH + 1];
    if (take_key()) {
        lose(KEY_VARIABLE " is no key", 0);
        return;
    }
    name_of_key(name);
    if (postcopy_recording_join(folder, name) == 0 && (pager = postcopy_log_open(folder, "pager", 0)) != NULL
        && (guest = postcopy_log_open(folder, "guest", RESUME)) != NULL) {
        stage = OPEN;
        say("records", 0);
    } else {
        lose(errno == EEXIST ? "it is of another key" : "it cannot be written", errno == EEXIST ? 0 : errno);
    }
}

/* Blocks. */

static int block_at(uint64_t start, uint64_t length)
{
    for (unsigned at = 0; at < blocks.count; at++)
        if (start >= blocks.at[at].start && start + length <= blocks.at[at].start + blocks.at[at].length)
            return (int)at;
    return -1;
}

static int is_any_guarded(void)
{
    for (unsigned at = 0; at < blocks.count; at++)
        if (guarded[at])
            return 1;
    return 0;
}

/* Returns the block that is about to be guarded, or -1: QEMU tries userfaultfd on a page of its own, too. */
static int block_to_guard(const struct uffdio_range *range)
{
    static struct blocks found;
    int block = block_at(range->start, range->len), error = 0;
    if (block >= 0)
        return block;
    if ((error = find_blocks(getpid(), &found)) == ENOENT)
        return -1;
    if (error) {
        lose("the blocks of memory cannot be found", error);
    } else if (!is_any_guarded()) {
        blocks = found;
        free(states);
        free(hashes);
        states = calloc(blocks.pages, 1);
        hashes = calloc(blocks.pages, sizeof *hashes);
        if (!states || !hashes)
            lose("there is no memory", ENOMEM);
    } else if (found.count != blocks.count || memcmp(found.at, blocks.at, found.count * sizeof *found.at)) {
        lose("a block was added after others were guarded", 0);
    }
    return stage == OPEN ? block_at(range->start, range->len) : -1;
}

/* Marks the pages of a block that are there, and whose entry of the page map has these bits. Returns 0 or an errno. */
static int mark(const struct block *block, uint64_t bits, uint8_t *marks)
{
    static uint64_t entries[ENTRIES];
    int map = open("/proc/self/pagemap", O_RDONLY | O_CLOEXEC);
    int error = map < 0 ? errno : 0;
    for (uint64_t at = 0, count; !error && at < block->length / PAGE; at += count) {
        count = block->length / PAGE - at < ENTRIES ? block->length / PAGE - at : ENTRIES;
        ssize_t got = pread(map, entries, count * 8, (off_t)((block->start / PAGE + at) * 8));
        error = got < 0 ? errno : got != (ssize_t)(count * 8) ? EIO : 0;
        for (uint64_t page = 0; !error && page < count; page++)
            marks[at + page] = (entries[page] & IS_THERE) && (entries[page] & bits) == bits;
    }
    if (map >= 0)
        close(map);
    return error;
}

/* PAGEMAP_SCAN, which older headers do not have, and older kernels than Linux 6.7. */
struct scan {
    uint64_t size, flags, start, end, walk_end, ranges, most, most_pages, inverted, all, any, told;
};
struct range {
    uint64_t start, end, categories;
};
#define SCAN _IOWR('f', 16, struct scan)
#define PRESENT_OR_SWAPPED (3 << 3)

/* Marks the pages of a block that are there, by a scan that passes over what is not. Returns 0 or an errno. */
static int mark_there(const struct block *block, uint8_t *marks)
{
    static struct range ranges[512];
    struct scan scan = {.size = sizeof scan, .start = block->start, .end = block->start + block->length, .ranges = (uintptr_t)ranges,
                        .most = sizeof ranges / sizeof *ranges, .any = PRESENT_OR_SWAPPED, .told = PRESENT_OR_SWAPPED};
    int map = open("/proc/self/pagemap", O_RDONLY | O_CLOEXEC), count;
    if (map < 0)
        return errno;
    while (scan.start < scan.end && (count = call(map, SCAN, &scan)) >= 0) {
        for (int at = 0; at < count; at++)
            memset(marks + (ranges[at].start - block->start) / PAGE, 1, (ranges[at].end - ranges[at].start) / PAGE);
        scan.start = scan.walk_end;
    }
    close(map);
    return scan.start < scan.end ? mark(block, 0, marks) : 0;
}

struct marked {
    const struct block *block;
    const uint8_t *marks;
    uint64_t *hashes;
};

static void hash_part(uint64_t part, void *of)
{
    const struct marked *marked = of;
    uint64_t end = marked->block->length / PAGE;
    for (uint64_t page = part * PART; page < (part + 1) * PART && page < end; page++)
        if (marked->marks[page])
            marked->hashes[page] = hash_of_page((const char *)marked->block->start + page * PAGE);
}

static void hash_marked(const struct block *block, const uint8_t *marks, uint64_t *into)
{
    struct marked marked = {block, marks, into};
    uint64_t parts = (block->length / PAGE + PART - 1) / PART, count = 0;
    for (uint64_t page = 0; page < block->length / PAGE; page++)
        count += marks[page];
    if (count > FEW)
        share(parts, hash_part, &marked);
    for (uint64_t part = 0; count <= FEW && part < parts; part++)
        hash_part(part, &marked);
}

/* Write-protects the marked pages. (An absent page stays as it is: QEMU could put no zeros there once it is protected.) */
static void protect(int fd, const struct block *block, const uint8_t *marks)
{
    uint64_t pages = block->length / PAGE;
    for (uint64_t page = 0, first; is_tracking && page < pages;) {
        for (first = page; page < pages && marks[page]; page++) {
        }
        struct uffdio_writeprotect what = {{block->start + first * PAGE, (page - first) * PAGE}, UFFDIO_WRITEPROTECT_MODE_WP};
        if (page == first) {
            page++;
        } else if (call(fd, UFFDIO_WRITEPROTECT, &what)) {
            say("writes are not tracked", errno);
            is_tracking = 0;
        }
    }
}

/* What there is where a block is guarded. The end of a block may not be in use, and then it is not guarded and does not migrate. */
static void look_at(int fd, int at, uint64_t length)
{
    const struct block *block = &blocks.at[at];
    uint8_t *marks = states + block->first;
    int error = mark_there(block, marks);
    guarded[at] = length;
    if (error) {
        lose("the page map cannot be read", error);
        return;
    }
    hash_marked(block, marks, hashes + block->first);
    protect(fd, &(struct block){.start = block->start, .length = length}, marks);
    memset(marks + length / PAGE, LEFT, (block->length - length) / PAGE); /* zeros, if nothing is there */
}

static int guard(int fd, struct uffdio_register *what)
{
    uint64_t mode = what->mode;
    pthread_mutex_lock(&lock);
    int block = stage == OPEN ? block_to_guard(&what->range) : -1;
    if (block >= 0 && is_tracking)
        what->mode |= UFFDIO_REGISTER_MODE_WP;
    int answer = call(fd, UFFDIO_REGISTER, what), error = errno;
    if (answer && what->mode != mode) {
        say("writes are not tracked", errno);
        is_tracking = 0;
        what->mode = mode;
        answer = call(fd, UFFDIO_REGISTER, what), error = errno;
    }
    if (answer == 0 && block >= 0)
        look_at(fd, block, what->range.len);
    pthread_mutex_unlock(&lock);
    errno = error;
    return answer;
}

/* Records. */

static void record_place(uint64_t page, uint64_t hash)
{
    uint32_t got = postcopy_record_got_sent(pager, SENDS + (uint32_t)page), before = atomic_load(&newest);
    uint32_t placed = postcopy_record_place(pager, (uint32_t)page, got, &hash, 1);
    while (placed != POSTCOPY_LOST && placed > before && !atomic_compare_exchange_weak(&newest, &before, placed)) {
    }
}

static void *tell_left(void *unused)
{
    for (uint64_t page = 0; page < blocks.pages; page++)
        if (states[page] == LEFT)
            record_place(page, hashes[page]);
    return unused;
}

/* The first placement or release: all blocks are guarded. What was left is recorded while the guest goes on. */
static void begin(void)
{
    if (stage != OPEN)
        return;
    pthread_mutex_lock(&lock);
    if (stage == OPEN && is_any_guarded()) {
        int error = write_blocks(folder, &blocks);
        postcopy_record_got_sent(pager, STATE);
        ready = postcopy_record_ready(pager);
        stage = BEGUN; /* from here on another thread may record what it puts in place */
        has_teller = pthread_create(&teller, NULL, tell_left, NULL) == 0;
        if (!has_teller)
            tell_left(NULL);
        if (error)
            lose("the file blocks cannot be written", error);
        else
            is_whole();
    }
    pthread_mutex_unlock(&lock);
}

static int place(int fd, unsigned long request, void *what, uint64_t start, uint64_t length, const char *contents)
{
    begin();
    int block = stage == BEGUN ? block_at(start, length) : -1;
    if (block < 0)
        return call(fd, request, what);
    uint64_t page = blocks.at[block].first + (start - blocks.at[block].start) / PAGE, count = length / PAGE, done;
    uint64_t few[512], *found = count <= 512 ? few : calloc(count, sizeof *found); /* a page of 1 GiB has more */
    for (uint64_t at = 0; found && at < count; at++)
        found[at] = contents ? hash_of_page(contents + at * PAGE) : 0;
    int answer = call(fd, request, what), error = errno;
    int64_t copied = request == UFFDIO_COPY ? ((struct uffdio_copy *)what)->copy : ((struct uffdio_zeropage *)what)->zeropage;
    done = answer == 0 ? count : copied > 0 ? (uint64_t)copied / PAGE : 0;
    for (uint64_t at = 0; found && at < done; at++) {
        states[page + at] = PLACED;
        record_place(page + at, found[at]);
    }
    if (answer && error == EEXIST && done < count)
        postcopy_record_skip(pager, postcopy_record_got_sent(pager, SENDS + (uint32_t)(page + done)));
    if (found != few)
        free(found);
    errno = error;
    return answer;
}

/* Opens to the guest what is in shared memory already. It can be read here only afterwards, so nobody is woken before. */
static int show(int fd, struct uffdio_continue *what)
{
    uint64_t mode = what->mode, length = what->range.len, start = what->range.start;
    begin();
    int block = stage == BEGUN ? block_at(start, length) : -1;
    if (block < 0)
        return call(fd, UFFDIO_CONTINUE, what);
    what->mode |= UFFDIO_CONTINUE_MODE_DONTWAKE;
    int answer = call(fd, UFFDIO_CONTINUE, what), error = errno;
    what->mode = mode;
    uint64_t page = blocks.at[block].first + (start - blocks.at[block].start) / PAGE;
    for (uint64_t at = 0; at < length / PAGE && (answer == 0 || (what->mapped > 0 && at < (uint64_t)what->mapped / PAGE)); at++) {
        states[page + at] = PLACED;
        record_place(page + at, hash_of_page((const char *)start + at * PAGE));
    }
    if (!(mode & UFFDIO_CONTINUE_MODE_DONTWAKE))
        call(fd, UFFDIO_WAKE, &(struct uffdio_range){start, length});
    errno = error;
    return answer;
}

/* Records what the pages hold to which nobody has written. The guest goes on meanwhile: a page that it writes to while it is hashed is
   protected no more, and left out. */
static void record_unwritten(const struct block *block)
{
    uint64_t pages = block->length / PAGE;
    uint8_t *before = calloc(pages, 1), *after = calloc(pages, 1);
    uint64_t *found = calloc(pages, sizeof *found);
    int error = before && after && found ? mark(block, IS_PROTECTED, before) : ENOMEM, has_seen = 0;
    if (!error) {
        hash_marked(block, before, found);
        error = mark(block, IS_PROTECTED, after);
    }
    for (uint64_t page = 0; !error && page < pages; page++)
        if (before[page] && after[page]) {
            if (!has_seen++)
                postcopy_record_see(guest, atomic_load(&newest));
            postcopy_record_read(guest, 0, (uint32_t)(block->first + page), 0, found[page]);
        }
    if (error)
        say("the pages to which nobody wrote are not known", error);
    free(before);
    free(after);
    free(found);
}

/* The last guard is gone. */
static void end_recording(void)
{
    uint64_t missing = 0;
    for (uint64_t page = 0; page < blocks.pages; page++)
        missing += states[page] == ABSENT;
    if (missing) {
        stage = ENDED;
        dprintf(STDERR_FILENO, "postcopy pages: %s: %lu of %lu pages never came\n", folder, missing, blocks.pages);
        return;
    }
    postcopy_record_all(pager);
    if (is_whole())
        say("recorded", 0);
    stage = ENDED;
    postcopy_log_close(pager); /* it says so if a record was lost */
    postcopy_log_close(guest);
}

static int release(int fd, struct uffdio_range *range)
{
    begin();
    pthread_mutex_lock(&lock);
    int block = stage == BEGUN ? block_at(range->start, range->len) : -1, is_last = 0;
    if (block >= 0 && guarded[block]) {
        if (has_teller)
            pthread_join(teller, NULL);
        has_teller = 0;
        if (!is_resumed++)
            postcopy_record_resume(guest, ready);
        if (is_tracking)
            record_unwritten(&blocks.at[block]);
        guarded[block] = 0;
        is_last = !is_any_guarded();
    }
    int answer = call(fd, UFFDIO_UNREGISTER, range), error = errno;
    if (is_last)
        end_recording();
    pthread_mutex_unlock(&lock);
    errno = error;
    return answer;
}

/* QEMU asks for no features first, to learn which there are, and gets the same answer as without this. */
static int ask_for_userfaultfd(int fd, struct uffdio_api *what)
{
    const struct uffdio_api asked = *what;
    pthread_mutex_lock(&lock);
    if (stage == CLOSED)
        open_recording();
    pthread_mutex_unlock(&lock);
    if (is_tracking) {
        what->features |= WP_ASYNC;
        if (call(fd, UFFDIO_API, what) == 0)
            return 0;
        say("this kernel tracks no writes", errno);
        is_tracking = 0;
        *what = asked;
    }
    return call(fd, UFFDIO_API, what);
}

__attribute__((constructor)) static void start(void)
{
    const char *track = getenv(TRACK_VARIABLE);
    folder = getenv(FOLDER_VARIABLE);
    is_tracking = track && *track == '1';
}

__attribute__((visibility("default"))) int ioctl(int fd, unsigned long request, ...)
{
    va_list words;
    va_start(words, request);
    void *what = va_arg(words, void *);
    va_end(words);
    switch (folder ? request : 0) {
    case UFFDIO_API:
        return ask_for_userfaultfd(fd, what);
    case UFFDIO_REGISTER:
        return guard(fd, what);
    case UFFDIO_UNREGISTER:
        return release(fd, what);
    case UFFDIO_COPY: {
        struct uffdio_copy *copy = what;
        if (is_tracking && block_at(copy->dst, copy->len) >= 0)
            copy->mode |= UFFDIO_COPY_MODE_WP;
        return place(fd, request, copy, copy->dst, copy->len, (const char *)copy->src);
    }
    case UFFDIO_ZEROPAGE: {
        struct uffdio_zeropage *zero = what;
        return place(fd, request, zero, zero->range.start, zero->range.len, NULL);
    }
    case UFFDIO_CONTINUE:
        return show(fd, what);
    default:
        return call(fd, request, what);
    }
}
