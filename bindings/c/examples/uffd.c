/* A post-copy migration on one machine, recorded: a guest of two threads moves from one process to another, which has none of
   its memory and fetches it page by page over a socket, by userfaultfd. Linux 5.11, for which no rights are needed.

       uffd FOLDER [--wake-first | --old-page | --place-twice] [--seed N] [--operations N]
       recorders/session FOLDER -o session && postcopy audit session

   The folder is a new one, since it holds the recording of one run. Each option is a mistake, which concerns page 5, and which
   no look at what the guest read would find:
       --wake-first    wakes the guest before it has placed the page
       --old-page      sends the page as it was before the guest's last write to it
       --place-twice   places the page once more, over a write

   The status is 0 where the migration went through, 1 where one side was left alone, and 3 where there is no userfaultfd. */
#ifndef _GNU_SOURCE
#define _GNU_SOURCE
#endif
#include <errno.h>
#include <fcntl.h>
#include <linux/userfaultfd.h>
#include <poll.h>
#include <pthread.h>
#include <stdatomic.h>
#include <stdio.h>
#include <stdlib.h>
#include <string.h>
#include <sys/eventfd.h>
#include <sys/ioctl.h>
#include <sys/mman.h>
#include <sys/socket.h>
#include <sys/syscall.h>
#include <sys/wait.h>
#include <unistd.h>

#include "uffd.h"

enum mistake mistake;
long operations = 300;
size_t page_size;
char *memory;

static const char *folder;
static int line; /* the socket to the other side */

void fail(const char *what)
{
    fprintf(stderr, "uffd: %s: %s\n", what, strerror(errno));
    _exit(2);
}

void start(pthread_t *thread, void *(*of)(void *), void *what)
{
    if ((errno = pthread_create(thread, NULL, of, what)))
        fail("a thread");
}

static postcopy_log *open_log(const char *party, uint32_t first)
{
    postcopy_log *log = postcopy_log_open(folder, party, first);
    if (!log)
        fail(party);
    return log;
}

/* The messages. A page's has its bytes behind it, and the state's a struct state. */

enum kind { STATE, PAGE, WANT, ALL };
struct message {
    uint32_t kind, number, page; /* `number`: of the record that tells of this message */
};
struct state {
    uint32_t guest_first;       /* with which record the guest's log goes on */
    uint64_t seeds[VCPUS];      /* the guest's processors */
    unsigned char free_[PAGES]; /* the pages that it has released */
};

static void put(const void *bytes, size_t length)
{
    if (send(line, bytes, length, MSG_NOSIGNAL) != (ssize_t)length)
        _exit(1);
}

static void put_message(uint32_t kind, uint32_t number, uint32_t page)
{
    put(&(struct message){kind, number, page}, sizeof(struct message));
}

/* Whether so many bytes came; not, if the other side has ended. */
static int take(void *bytes, size_t length)
{
    return recv(line, bytes, length, MSG_WAITALL) == (ssize_t)length;
}

/* The source. One thread pushes pages, and another answers what is asked, both under one lock. */

static postcopy_log *source;
static pthread_mutex_t source_lock = PTHREAD_MUTEX_INITIALIZER;
static uint32_t sent_as[PAGES]; /* the number of a page's send */
static unsigned char is_sent[PAGES];
static char old_page[4096];

/* Sends a page that the target is owed, the first time or again. */
static void send_page(uint32_t page)
{
    const char *bytes = mistake == OLD_PAGE && page == MARKED ? old_page : memory + page * page_size;
    uint32_t number = is_sent[page] ? postcopy_record_again(source, sent_as[page])
                                    : postcopy_record_send(source, page, (const uint64_t *)bytes, CELLS);
    if (!is_sent[page])
        sent_as[page] = number;
    is_sent[page] = 1;
    put_message(PAGE, number, page);
    put(bytes, page_size);
}

static void *push(void *nothing)
{
    for (uint32_t page = 0; page < PAGES; page++) {
        pthread_mutex_lock(&source_lock);
        if (!is_free[page] && !is_sent[page] && page != MARKED) /* (that one waits until it is asked for) */
            send_page(page);
        pthread_mutex_unlock(&source_lock);
        usleep(300);
    }
    return nothing;
}

static void answer(void)
{
    struct message message = {0};
    while (message.kind != ALL) {
        if (!take(&message, sizeof message))
            _exit(1);
        pthread_mutex_lock(&source_lock);
        postcopy_record_ask_sent(source, message.number);
        if (message.kind == ALL)
            postcopy_record_done(source);
        else if (!is_free[message.page])
            send_page(message.page);
        pthread_mutex_unlock(&source_lock);
    }
}

static void begin_machine(uint64_t seed)
{
    postcopy_log *machine = open_log("machine", 0);
    postcopy_record_machine(machine, PAGES, CELLS);
    for (int n = 0; n < VCPUS; n++)
        vcpus[n].seed = seed * VCPUS + n + 1;
    for (uint32_t page = 0; page < PAGES; page++) {
        for (uint32_t cell = 0; page != MARKED && cell < CELLS; cell++)
            cells_of(page)[cell] = random_of(&vcpus[0]);
        postcopy_record_initial(machine, page, cells_of(page), CELLS);
    }
    postcopy_log_close(machine);
}

static void be_source(uint64_t seed)
{
    guest = open_log("guest", 0);
    source = open_log("source", 0);
    begin_machine(seed);
    run_guest();
    memcpy(old_page, memory + MARKED * page_size, page_size);
    use(&vcpus[0], MARKED, 1, 1); /* the last write, which --old-page overlooks */

    uint32_t halt = postcopy_record_halt(guest);
    postcopy_record_halted(source, halt);
    struct state state = {.guest_first = postcopy_log_hand_over(guest)};
    for (int n = 0; n < VCPUS; n++)
        state.seeds[n] = vcpus[n].seed;
    memcpy(state.free_, is_free, sizeof is_free);
    put_message(STATE, postcopy_record_state(source), 0);
    put(&state, sizeof state);

    pthread_t pushing;
    start(&pushing, push, NULL);
    answer();
    pthread_join(pushing, NULL);
    postcopy_log_close(source);
}

/* The target. What is placed and what is in the table of placements change together, under the lock that looks take. */

static postcopy_log *pager;
static pthread_mutex_t pager_lock = PTHREAD_MUTEX_INITIALIZER;
static uint32_t placed_as[PAGES]; /* the table: the number of a page's placement, or POSTCOPY_LOST */
static uint32_t wanted_as[PAGES]; /* the number of a page's want, or POSTCOPY_LOST */
static unsigned char is_there[PAGES], is_wanted[PAGES];
static uint32_t left; /* pages that are owed and not placed */
static int uffd, over;

static uint32_t placement_of(uint32_t page)
{
    pthread_mutex_lock(&pager_lock);
    uint32_t placement = placed_as[page];
    pthread_mutex_unlock(&pager_lock);
    return placement;
}

void look(struct vcpu *vcpu, uint32_t page)
{
    uint32_t placement = placement_of(page);
    if (placement == POSTCOPY_LOST) {
        atomic_store(&vcpu->miss, postcopy_record_miss(guest, vcpu->number, page));
        (void)*(volatile uint64_t *)cells_of(page); /* waits in the kernel */
        placement = placement_of(page);
    }
    if (placement != POSTCOPY_LOST && placement > vcpu->seen) {
        postcopy_record_see(guest, placement);
        vcpu->seen = placement;
    }
}

static void wake(uint32_t page)
{
    struct uffdio_range range = {(uintptr_t)cells_of(page), page_size};
    if (ioctl(uffd, UFFDIO_WAKE, &range))
        fail("a wake");
}

/* Puts zeros in place, without a wake or with one. */
static void put_zeros(uint32_t page, uint64_t mode)
{
    struct uffdio_zeropage zeros = {{(uintptr_t)cells_of(page), page_size}, mode, 0};
    if (ioctl(uffd, UFFDIO_ZEROPAGE, &zeros))
        fail("zeros");
}

/* Puts contents in place without a wake, and answers whether the page was not there before. */
static int put_contents(uint32_t page, const char *bytes)
{
    struct uffdio_copy copy = {(uintptr_t)cells_of(page), (uintptr_t)bytes, page_size, UFFDIO_COPY_MODE_DONTWAKE, 0};
    while (ioctl(uffd, UFFDIO_COPY, &copy)) {
        if (errno == EEXIST)
            return 0;
        if (errno != EAGAIN)
            fail("a copy");
        copy.copy = 0;
    }
    return 1;
}

static void wait_for(atomic_int *flag)
{
    for (int n = 0; n < 10000 && !atomic_load(flag); n++)
        usleep(100);
}

static void place(uint32_t page, uint32_t got, const char *bytes)
{
    if (mistake == WAKE_FIRST && page == MARKED && !is_there[page]) {
        put_zeros(page, 0); /* the mistake: the guest is awake .. */
        wait_for(&was_used);
        pthread_mutex_lock(&pager_lock);
        memcpy(cells_of(page), bytes, page_size); /* .. and its page comes now */
    } else {
        if (mistake == PLACE_TWICE && page == MARKED && is_there[page])
            wait_for(&was_written);
        pthread_mutex_lock(&pager_lock);
        if (!put_contents(page, bytes)) {
            if (mistake != PLACE_TWICE || page != MARKED) {
                postcopy_record_skip(pager, got);
                pthread_mutex_unlock(&pager_lock);
                return;
            }
            memcpy(cells_of(page), bytes, page_size); /* the mistake: it was there already */
        }
    }
    placed_as[page] = postcopy_record_place(pager, page, got, (const uint64_t *)bytes, CELLS);
    left -= !is_there[page];
    if (!is_there[page] && left == 0)
        put_message(ALL, postcopy_record_all(pager), 0);
    is_there[page] = 1;
    pthread_mutex_unlock(&pager_lock);
    wake(page);
}

static void *receive(void *nothing)
{
    struct message message;
    static char bytes[4096] __attribute__((aligned(8)));
    while (take(&message, sizeof message) && take(bytes, page_size)) {
        pthread_mutex_lock(&pager_lock);
        uint32_t got = postcopy_record_got_sent(pager, message.number);
        pthread_mutex_unlock(&pager_lock);
        place(message.page, got, bytes);
    }
    if (left)
        _exit(1);
    return nothing;
}

/* Sees to one page that a thread of the guest waits for. */
static void serve(uint32_t page, int tid)
{
    pthread_mutex_lock(&pager_lock);
    for (int n = 0; n < VCPUS; n++)
        if (atomic_load(&vcpus[n].tid) == tid)
            postcopy_record_fault(pager, atomic_load(&vcpus[n].miss));
    if (is_free[page] && !is_there[page]) {
        put_zeros(page, UFFDIO_ZEROPAGE_MODE_DONTWAKE);
        placed_as[page] = postcopy_record_zero(pager, page);
        is_there[page] = 1;
    } else if (!is_there[page] && is_wanted[page])
        postcopy_record_join(pager, wanted_as[page]);
    else if (!is_there[page]) {
        is_wanted[page] = 1;
        for (int n = 0; n < (page == MARKED ? 2 : 1); n++) { /* (that one is asked for again, as where no answer comes) */
            wanted_as[page] = postcopy_record_want(pager, page);
            put_message(WANT, wanted_as[page], page);
        }
    }
    int is_awake = is_there[page];
    pthread_mutex_unlock(&pager_lock);
    if (is_awake)
        wake(page);
}

static void *listen_for_faults(void *nothing)
{
    struct pollfd files[2] = {{.fd = uffd, .events = POLLIN}, {.fd = over, .events = POLLIN}};
    while (poll(files, 2, -1) > 0 && !files[1].revents) {
        struct uffd_msg message;
        if (read(uffd, &message, sizeof message) == sizeof message && message.event == UFFD_EVENT_PAGEFAULT)
            serve((message.arg.pagefault.address - (uintptr_t)memory) / page_size, message.arg.pagefault.feat.ptid);
    }
    return nothing;
}

static int open_uffd(void)
{
    int file = syscall(__NR_userfaultfd, O_CLOEXEC | O_NONBLOCK | UFFD_USER_MODE_ONLY);
    struct uffdio_api api = {.api = UFFD_API, .features = UFFD_FEATURE_THREAD_ID};
    if (file < 0 || ioctl(file, UFFDIO_API, &api)) {
        fprintf(stderr, "uffd: this kernel, or its container, gives no userfaultfd: %s\n", strerror(errno));
        _exit(3);
    }
    return file;
}

static void guard_memory(void)
{
    struct uffdio_register guarded = {.range = {(uintptr_t)memory, PAGES * page_size}, .mode = UFFDIO_REGISTER_MODE_MISSING};
    uffd = open_uffd();
    if (ioctl(uffd, UFFDIO_REGISTER, &guarded))
        fail("userfaultfd");
}

static void take_state(void)
{
    struct message message;
    struct state state;
    if (!take(&message, sizeof message) || !take(&state, sizeof state))
        _exit(1);
    postcopy_record_got_sent(pager, message.number);
    guest = open_log("guest", state.guest_first);
    memcpy(is_free, state.free_, sizeof is_free);
    for (int n = 0; n < VCPUS; n++)
        vcpus[n].seed = state.seeds[n];
    for (uint32_t page = 0; page < PAGES; page++) {
        placed_as[page] = wanted_as[page] = POSTCOPY_LOST;
        left += !is_free[page];
    }
}

static void be_target(void)
{
    pthread_t receiving, listening;
    pager = open_log("pager", 0);
    over = eventfd(0, EFD_CLOEXEC);
    take_state();
    guard_memory();
    uint32_t ready = postcopy_record_ready(pager);
    start(&listening, listen_for_faults, NULL);
    start(&receiving, receive, NULL);
    is_moved = 1;
    postcopy_record_resume(guest, ready);
    run_guest();
    pthread_join(receiving, NULL);
    if (write(over, &(uint64_t){1}, 8) != 8)
        fail("an eventfd");
    pthread_join(listening, NULL);
    postcopy_log_close(guest);
    postcopy_log_close(pager);
}

/* A number of at most nine digits; of any other word 0, and `is_known` is 0 then. */
static long number(const char *word, int *is_known)
{
    size_t length = strspn(word, "0123456789");
    *is_known &= length > 0 && length < 10 && !word[length];
    return *is_known ? strtol(word, NULL, 10) : 0;
}

static uint64_t asked(int count, char **words)
{
    uint64_t seed = 1;
    int is_known = 1, mistakes = 0;
    for (int n = 1; n < count; n++) {
        if (!strcmp(words[n], "--wake-first"))
            mistake = WAKE_FIRST, mistakes++;
        else if (!strcmp(words[n], "--old-page"))
            mistake = OLD_PAGE, mistakes++;
        else if (!strcmp(words[n], "--place-twice"))
            mistake = PLACE_TWICE, mistakes++;
        else if (!strcmp(words[n], "--seed") && n + 1 < count)
            seed = number(words[++n], &is_known);
        else if (!strcmp(words[n], "--operations") && n + 1 < count)
            operations = number(words[++n], &is_known);
        else if (*words[n] != '-' && !folder)
            folder = words[n];
        else
            is_known = 0;
    }
    if (!folder || !is_known || mistakes > 1) {
        fprintf(stderr, "usage: uffd FOLDER [--wake-first | --old-page | --place-twice] [--seed N] [--operations N]\n");
        _exit(2);
    }
    return seed;
}

int main(int count, char **words)
{
    uint64_t seed = asked(count, words);
    int ends[2], status, worst = 0;
    pid_t sides[2];
    close(open_uffd());
    page_size = sysconf(_SC_PAGESIZE);
    memory = mmap(NULL, PAGES * page_size, PROT_READ | PROT_WRITE, MAP_PRIVATE | MAP_ANONYMOUS, -1, 0);
    if (page_size != sizeof old_page || memory == MAP_FAILED || socketpair(AF_UNIX, SOCK_STREAM, 0, ends))
        fail("pages of 4,096 bytes, and a socket");
    for (uint32_t n = 0; n < VCPUS; n++)
        vcpus[n].number = n;
    for (int side = 0; side < 2; side++) {
        if ((sides[side] = fork()) < 0)
            fail("a process");
        if (sides[side] == 0) {
            line = ends[side];
            close(ends[!side]);
            side ? be_target() : be_source(seed);
            _exit(0);
        }
    }
    printf("source %ld, target %ld, the page of the mistakes is %d\n", (long)sides[0], (long)sides[1], MARKED);
    fflush(stdout);
    close(ends[0]);
    close(ends[1]);
    for (int side = 0; side < 2; side++) {
        waitpid(sides[side], &status, 0);
        worst |= !WIFEXITED(status) || WEXITSTATUS(status);
    }
    return worst;
}
