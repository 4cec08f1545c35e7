/*
 * A process with two blocks of memory like a QEMU's: 600 private pages, and 40 of a memory file. Its words say what it does.
 *
 *     guarded source ..     fills the pages, and waits for the end of standard input. With `give=P` it gives page P of the first block back, and
 *                           with `other` its pages hold what those of another guest would
 *     guarded target N ..   fills the first N pages of each block, at most 20 of the second, guards both by userfaultfd, puts the other pages in place, and takes the
 *                           guards away. Each further word is done once, with page P of all pages, the first block's first:
 *
 *         flip=P     its contents have another bit
 *         drop=P     it is not put in place
 *         last=P     nor is any page behind it
 *         twice=P    it is put in place twice
 *         write=P    it is written to when all pages are there
 *         die=P      the process is killed before it
 *         twin       there is a third block, of 40 pages that are private. At the source, `twin=1` has its contents in the second, and the second's in it
 *         precopy    nothing is guarded: there is no switch
 *         plug       a third block comes: at the source at the beginning, and at the target once the others are guarded
 *         show       the second block's pages are put into the file, and shown two by two by UFFDIO_CONTINUE
 *
 * As a QEMU does, the target first tries userfaultfd on a page of its own. A page whose number is 3 more than a multiple of 4 is zeros. The last
 * line tells which pages are absent in the end.
 */
#define _GNU_SOURCE
#include <fcntl.h>
#include <linux/userfaultfd.h>
#include <signal.h>
#include <stdint.h>
#include <stdio.h>
#include <stdlib.h>
#include <string.h>
#include <sys/ioctl.h>
#include <sys/mman.h>
#include <sys/syscall.h>
#include <unistd.h>

#define PAGE 4096UL
static const uint64_t pages_of[] = {600, 40, 40};
static const int places[] = {200, 100, 900}; /* with pages between the blocks, as QEMU leaves some */
static char *memory[3], *other; /* `other` is a second mapping of the file */
static const char *const *words;
static int is_shown, uffd, blocks = 2;
static uint64_t is_other;

static void check(int is_right, const char *what)
{
    if (!is_right) {
        perror(what);
        exit(3);
    }
}

static long number(const char *name)
{
    for (const char *const *word = words; *word; word++)
        if (!strncmp(*word, name, strlen(name)))
            return atol(*word + strlen(name));
    return -1;
}

static int is_zeros(long page)
{
    return page % 4 == 3;
}

static void fill(char *at, long page)
{
    for (uint64_t word = 0; word < PAGE / 8; word++)
        ((uint64_t *)at)[word] = is_zeros(page) ? 0 : (uint64_t)page * 1000003 + word + 1 + is_other;
}

static void put(char *at, long page)
{
    static char buffer[PAGE] __attribute__((aligned(PAGE)));
    fill(buffer, page);
    if (page == number("flip="))
        buffer[PAGE - 1] ^= 16;
    if (is_shown && at >= memory[1] && at < memory[1] + pages_of[1] * PAGE) {
        memcpy(other + (at - memory[1]), buffer, PAGE);
        struct uffdio_continue show = {{(uintptr_t)at - PAGE, 2 * PAGE}, 0, 0};
        check((at - memory[1]) / PAGE % 2 == 0 || ioctl(uffd, UFFDIO_CONTINUE, &show) == 0, "UFFDIO_CONTINUE");
        return;
    }
    struct uffdio_copy copy = {(uintptr_t)at, (uintptr_t)buffer, PAGE, 0, 0};
    struct uffdio_zeropage zeros = {{(uintptr_t)at, PAGE}, 0, 0};
    int answer = is_zeros(page) ? ioctl(uffd, UFFDIO_ZEROPAGE, &zeros) : ioctl(uffd, UFFDIO_COPY, &copy);
    check(answer == 0 || page == number("twice="), "UFFDIO_COPY");
}

static struct uffdio_range plugged(void)
{
    char *block = mmap(NULL, 8 * PAGE, PROT_READ | PROT_WRITE, MAP_PRIVATE | MAP_ANONYMOUS, -1, 0);
    check(block != MAP_FAILED && madvise(block, 8 * PAGE, MADV_DONTFORK) == 0, "mmap");
    return (struct uffdio_range){(uintptr_t)block, 8 * PAGE};
}

static void open_userfaultfd(void)
{
    struct uffdio_api api = {.api = UFFD_API, .features = is_shown ? UFFD_FEATURE_MINOR_SHMEM : 0};
    uffd = (int)syscall(SYS_userfaultfd, O_CLOEXEC | O_NONBLOCK);
    check(uffd >= 0 && ioctl(uffd, UFFDIO_API, &api) == 0, "userfaultfd");
}

static void try_userfaultfd(void)
{
    struct uffdio_register guard = {.mode = UFFDIO_REGISTER_MODE_MISSING};
    guard.range = (struct uffdio_range){(uintptr_t)mmap(NULL, PAGE, PROT_READ | PROT_WRITE, MAP_PRIVATE | MAP_ANONYMOUS, -1, 0), PAGE};
    open_userfaultfd();
    check(ioctl(uffd, UFFDIO_REGISTER, &guard) == 0 && ioctl(uffd, UFFDIO_UNREGISTER, &guard.range) == 0, "a page of its own");
    close(uffd);
}

static void migrate(long left)
{
    try_userfaultfd();
    if (number("precopy") >= 0)
        return;
    open_userfaultfd();
    for (int block = 0; block < blocks; block++) {
        uint64_t mode = is_shown && block ? UFFDIO_REGISTER_MODE_MINOR : UFFDIO_REGISTER_MODE_MISSING;
        struct uffdio_register guard = {{(uintptr_t)memory[block], pages_of[block] * PAGE}, mode, 0};
        check(ioctl(uffd, UFFDIO_REGISTER, &guard) == 0, "UFFDIO_REGISTER");
    }
    if (number("plug") >= 0)
        check(ioctl(uffd, UFFDIO_REGISTER, &(struct uffdio_register){plugged(), UFFDIO_REGISTER_MODE_MISSING, 0}) == 0, "UFFDIO_REGISTER");
    for (long block = 0, page = 0; block < blocks; block++)
        for (long at = 0; at < (long)pages_of[block]; at++, page++) {
            if (page == number("die="))
                kill(getpid(), SIGKILL);
            if (at >= (block && left > 20 ? 20 : left) && page != number("drop=") && (number("last=") < 0 || page <= number("last=")))
                put(memory[block] + (uint64_t)at * PAGE, page);
            if (page == number("twice="))
                put(memory[block] + (uint64_t)at * PAGE, page);
        }
    if (number("write=") >= 0)
        memory[0][(uint64_t)number("write=") * PAGE] ^= 1;
    for (int block = 0; block < blocks; block++)
        check(ioctl(uffd, UFFDIO_UNREGISTER, &(struct uffdio_range){(uintptr_t)memory[block], pages_of[block] * PAGE}) == 0, "UFFDIO_UNREGISTER");
}

static void tell_absent(void)
{
    int map = open("/proc/self/pagemap", O_RDONLY | O_CLOEXEC);
    uint64_t entry;
    for (long page = 0; page < (long)pages_of[0]; page++)
        if (pread(map, &entry, 8, (off_t)(((uintptr_t)memory[0] / PAGE + (uint64_t)page) * 8)) == 8 && !(entry >> 62))
            printf("%ld ", page);
    puts("absent");
}

int main(int count, char **word)
{
    int file = memfd_create("block", MFD_CLOEXEC), is_source = count > 1 && !strcmp(word[1], "source");
    words = (const char *const *)word;
    is_shown = number("show") >= 0;
    is_other = number("other") >= 0;
    check(file >= 0 && ftruncate(file, (off_t)(pages_of[1] * PAGE)) == 0, "memfd_create");
    char *room = mmap(NULL, 1000 * PAGE, PROT_NONE, MAP_PRIVATE | MAP_ANONYMOUS, -1, 0);
    blocks += number("twin") >= 0;
    for (int block = 0; block < blocks; block++) {
        uint64_t length = pages_of[block] * PAGE;
        memory[block] = mmap(room + places[block] * (int)PAGE, length, PROT_READ | PROT_WRITE,
                             MAP_FIXED | (block == 1 ? MAP_SHARED : MAP_PRIVATE | MAP_ANONYMOUS), block == 1 ? file : -1, 0);
        check(memory[block] != MAP_FAILED && madvise(memory[block], length, MADV_DONTFORK) == 0, "mmap");
    }
    other = mmap(NULL, pages_of[1] * PAGE, PROT_READ | PROT_WRITE, MAP_SHARED, file, 0);
    if (number("twin=") > 0) {
        char *second = memory[1];
        memory[1] = memory[2], memory[2] = second;
    }
    long left = count > 2 ? atol(word[2]) : 0;
    for (long block = 0, page = 0; block < blocks; block++)
        for (long at = 0; at < (long)pages_of[block]; at++, page++)
            if (is_source || at < (block && left > 20 ? 20 : left))
                fill(memory[block] + (uint64_t)at * PAGE, page);
    if (is_source) {
        if (number("plug") >= 0)
            plugged();
        if (number("give=") >= 0)
            check(madvise(memory[0] + (uint64_t)number("give=") * PAGE, PAGE, MADV_DONTNEED) == 0, "madvise");
        puts("filled");
        fflush(stdout);
        while (getchar() != EOF) {
        }
        return 0;
    }
    migrate(left);
    tell_absent();
    return 0;
}
