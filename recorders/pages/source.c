/*
 * Stands beside the QEMU that a guest moves from: records the contents of its memory at the halt.
 *
 *     source PID FOLDER             the key is in POSTCOPY_PAGES_KEY
 *     source PID FOLDER stopped     of the QEMU that a guest has moved to by pre-copy, and that is stopped: records what its memory holds
 *
 * It attaches to the process's main thread, so that a QEMU that ends, even by SIGKILL, keeps its memory until that is hashed. Nothing is
 * stopped before. Standard input has what the monitor tells, a word on each line:
 *
 *     halt     the guest stands still: the memory is hashed
 *     back     the guest goes on at the source: what was hashed at the halt is recorded, and `back`
 *     end      the migration is complete: the memory is hashed, or hashed again, and recorded
 *     failed   there was no migration: nothing is recorded
 *
 * Where standard input ends there is no monitor any more, and the memory is hashed where the process ends. Standard output has
 *
 *     ready BLOCKS PAGES
 *     hashed PAGES MILLISECONDS
 *     changed PAGES     so many pages are other than at the halt; what is recorded is what they are in the end
 *     held              the process ends, and is held
 *     recorded
 *
 * and standard error why nothing is recorded; the status is 1 then.
 */
#define _GNU_SOURCE
#include "pages.h"

#include <errno.h>
#include <fcntl.h>
#include <poll.h>
#include <pthread.h>
#include <signal.h>
#include <stdatomic.h>
#include <stdio.h>
#include <stdlib.h>
#include <string.h>
#include <sys/mman.h>
#include <sys/ptrace.h>
#include <sys/wait.h>
#include <time.h>
#include <unistd.h>
#include "postcopy_record.h"

#define PART 256 /* pages that a thread takes at once */
#define SECOND INT64_C(1000000000)
enum { LONGEST_FOR_WORD = 2, LONGEST = 60 }; /* seconds for which a process that ends is held: for a word of the monitor, and in all */

static pid_t process;
static const char *folder;
static int memory = -1, page_map = -1;
static sigset_t while_waiting; /* the signals that are blocked then */
static struct blocks blocks;

/* Hashes of all pages. At most one is made at a time, by a thread beside the one that attends to the process. */
struct look {
    struct blocks blocks;
    uint64_t *hashes;
    uint8_t *absent; /* of each page: 1 if there is nothing */
    _Atomic int error; /* an errno, or ENDED */
    int64_t nanoseconds;
};
enum { ENDED = -1 };
static struct look at_halt, at_end, *looking; /* `looking` is the one that is being made */
static _Atomic int is_done;
static pthread_t looker;

static int64_t now(void)
{
    struct timespec time;
    clock_gettime(CLOCK_MONOTONIC, &time);
    return time.tv_sec * SECOND + time.tv_nsec;
}

static void tell(const char *line)
{
    puts(line);
    fflush(stdout);
}

static void __attribute__((noreturn)) refuse(const char *what, int error)
{
    fprintf(stderr, "process %d: %s%s%s\n", process, what, error ? ": " : "", error ? strerror(error) : "");
    exit(1); /* which lets the process go */
}

/* Looks. */

/* Marks which of these pages were never used, or given back, so that they are zeros. Returns whether all are. (In memory that has a file, the
   file may have them.) */
static int mark_absent(const struct block *block, uint64_t page, uint64_t count, uint8_t *absent)
{
    uint64_t entries[PART];
    int all = 1;
    if (!block->is_anonymous || pread(page_map, entries, count * 8, (off_t)((block->start / PAGE + page) * 8)) != (ssize_t)(count * 8))
        return 0;
    for (uint64_t at = 0; at < count; at++)
        all &= absent[at] = !(entries[at] & IS_THERE);
    return all;
}

static void hash_part(uint64_t part, void *of)
{
    struct look *look = of;
    char buffer[PAGE * PART];
    const struct block *block = look->blocks.at;
    while (part >= (block->length / PAGE + PART - 1) / PART)
        part -= (block++->length / PAGE + PART - 1) / PART;
    uint64_t page = part * PART, left = block->length / PAGE - page, count = left < PART ? left : PART;
    if (mark_absent(block, page, count, look->absent + block->first + page))
        return;
    ssize_t got = pread(memory, buffer, count * PAGE, (off_t)(block->start + page * PAGE));
    if (got != (ssize_t)(count * PAGE))
        look->error = got < 0 ? errno : ENDED;
    for (uint64_t at = 0; !look->error && at < count; at++)
        look->hashes[block->first + page + at] = hash_of_page(buffer + at * PAGE);
}

static void *look_at_all(void *of)
{
    struct look *look = of;
    uint64_t parts = 0;
    int64_t began = now();
    look->error = find_blocks(process, &look->blocks);
    look->hashes = look->error ? NULL : calloc(look->blocks.pages, sizeof *look->hashes);
    look->absent = look->error ? NULL : calloc(look->blocks.pages, 1);
    if (!look->error && !(look->hashes && look->absent))
        look->error = ENOMEM;
    for (unsigned at = 0; at < look->blocks.count; at++)
        parts += (look->blocks.at[at].length / PAGE + PART - 1) / PART;
    if (!look->error)
        share(parts, hash_part, look);
    look->nanoseconds = now() - began;
    is_done = 1;
    return NULL;
}

static void begin_to_look(struct look *look)
{
    looking = look;
    is_done = 0;
    if (pthread_create(&looker, NULL, look_at_all, look))
        refuse("no thread can be made", 0);
}

static void end_look(void)
{
    char line[80];
    pthread_join(looker, NULL);
    if (!looking->error) {
        sprintf(line, "hashed %lu %.0f", looking->blocks.pages, (double)looking->nanoseconds / 1e6);
        tell(line);
    }
    looking = NULL;
}

/* Returns the hashes that are recorded: the later ones, if they could be made. */
static const struct look *compared(void)
{
    char line[80];
    uint64_t changed = 0;
    if (!at_halt.hashes || at_halt.error)
        return &at_end;
    if (!at_end.hashes || at_end.error)
        return &at_halt;
    if (at_halt.blocks.pages != at_end.blocks.pages)
        refuse("its blocks of memory are others than at the halt", 0);
    for (uint64_t page = 0; page < at_end.blocks.pages; page++)
        changed += at_halt.hashes[page] != at_end.hashes[page];
    sprintf(line, "changed %lu", changed);
    if (changed)
        tell(line);
    return &at_end;
}

/* Records. */

static postcopy_log *opened(const char *party, uint32_t first)
{
    postcopy_log *log = postcopy_log_open(folder, party, first);
    if (!log)
        refuse(folder, errno);
    return log;
}

/* Writes a line for each range of pages in which there was nothing. Returns 0 or an errno. */
static int write_absent(const struct look *look)
{
    char path[4096];
    if (snprintf(path, sizeof path, "%s/absent", folder) >= (int)sizeof path)
        return ENAMETOOLONG;
    FILE *file = fopen(path, "we");
    if (!file)
        return errno;
    for (uint64_t page = 0, first; page < look->blocks.pages; page++) {
        for (first = page; page < look->blocks.pages && look->absent[page]; page++) {
        }
        if (page > first)
            fprintf(file, "%lu %lu\n", first, page - first);
    }
    return fclose(file) ? errno : 0;
}

/* Refuses a look that was not made. Otherwise writes the blocks, and what was absent. Returns 0 or an errno. */
static int begin_to_record(const struct look *look)
{
    if (!look->hashes || look->error)
        refuse("its memory cannot be read", look->error == ENDED ? ESRCH : look->error);
    int error = write_blocks(folder, &look->blocks);
    return error ? error : write_absent(look);
}

static void end_recording(int error)
{
    if (error)
        refuse(folder, error);
    tell("recorded");
}

/* What pre-copy has left: all pages are there before the guest goes on. */
static void record_target(const struct look *look)
{
    int error = begin_to_record(look);
    postcopy_log *pager = opened("pager", 0), *guest = opened("guest", RESUME);
    postcopy_record_got_sent(pager, STATE);
    uint32_t ready = postcopy_record_ready(pager), placed = 0;
    for (uint64_t page = 0; page < look->blocks.pages; page++)
        placed = postcopy_record_place(pager, (uint32_t)page, postcopy_record_got_sent(pager, SENDS + (uint32_t)page), &look->hashes[page], 1);
    postcopy_record_all(pager);
    postcopy_record_resume(guest, ready);
    postcopy_record_see(guest, placed);
    if (!error)
        error = postcopy_log_error(pager) ? postcopy_log_error(pager) : postcopy_log_error(guest);
    postcopy_log_close(pager);
    postcopy_log_close(guest);
    end_recording(error);
}

static void record(const struct look *look, int is_back)
{
    int error = begin_to_record(look);
    postcopy_log *machine = opened("machine", 0), *guest = opened("guest", HALT), *source = opened("source", 0);
    postcopy_record_machine(machine, (uint32_t)look->blocks.pages, 1);
    for (uint64_t page = 0; page < look->blocks.pages; page++)
        if (look->hashes[page])
            postcopy_record_initial(machine, (uint32_t)page, &look->hashes[page], 1);
    postcopy_record_halted(source, postcopy_record_halt(guest));
    postcopy_record_state(source);
    for (uint64_t page = 0; page < look->blocks.pages; page++)
        postcopy_record_send(source, (uint32_t)page, &look->hashes[page], 1);
    if (is_back)
        postcopy_record_back(source);
    for (int log = 0; !error && log < 3; log++)
        error = postcopy_log_error((postcopy_log *[]){machine, guest, source}[log]);
    postcopy_log_close(machine);
    postcopy_log_hand_over(guest);
    postcopy_log_close(source);
    end_recording(error);
}

/* The monitor's words. */

enum word { NONE, HALT_SEEN, BACK, END, FAILED, NO_MONITOR };

static enum word word_of(const char *line)
{
    static const char *const words[] = {"", "halt\n", "back\n", "end\n", "failed\n"};
    enum word word = FAILED;
    while (word && strcmp(words[word], line))
        word--;
    return word;
}

static void note_child(int number)
{
    (void)number; /* it ends a wait */
}

/* Waits for a line, for a change of the process, or for a moment. */
static enum word heard(int has_monitor)
{
    static char line[64];
    static size_t length;
    struct pollfd input = {STDIN_FILENO, POLLIN, 0};
    struct timespec moment = {.tv_nsec = (looking ? 5 : 200) * 1000000};
    if (ppoll(&input, (nfds_t)has_monitor, &moment, &while_waiting) <= 0)
        return NONE;
    ssize_t got = read(STDIN_FILENO, line + length, 1);
    if (got <= 0)
        return NO_MONITOR;
    if (line[length++] != '\n' && length < sizeof line - 1)
        return NONE;
    line[length] = 0;
    length = 0;
    return word_of(line);
}

/* The process. */

static enum { RUNS, HELD, GONE } state;

static void attend(void)
{
    int status;
    pid_t who = waitpid(process, &status, __WALL | WNOHANG);
    if (who == 0 || state == GONE)
        return;
    if (who < 0 || WIFEXITED(status) || WIFSIGNALED(status)) {
        state = GONE;
    } else if (status >> 16 == PTRACE_EVENT_EXIT) {
        state = HELD;
        tell("held");
    } else if (status >> 16 == PTRACE_EVENT_STOP) {
        ptrace(PTRACE_LISTEN, process, 0, 0);
    } else {
        ptrace(PTRACE_CONT, process, 0, WSTOPSIG(status));
    }
}

static void let_go(void)
{
    ptrace(state == HELD ? PTRACE_CONT : PTRACE_DETACH, process, 0, 0); /* one that is not stopped goes with this program */
}

/* Waits until the memory is hashed for the last time. Returns whether the guest went on at the source. */
static int watch(void)
{
    int64_t held_since = 0;
    enum word last = NONE;
    int has_monitor = 1;
    for (;;) {
        enum word word = heard(has_monitor);
        if (word == NO_MONITOR)
            has_monitor = 0;
        else if (word)
            last = word;
        attend();
        if (looking && is_done)
            end_look();
        if (last == FAILED)
            refuse("there was no post-copy, or the source had its guest go on at once: nothing is recorded", 0);
        if (state == GONE && !looking && (at_halt.hashes ? at_halt.error : 1))
            refuse("it ended before its memory was hashed: nothing is recorded", 0);
        if (last == HALT_SEEN && !looking && !at_halt.hashes && !at_halt.error)
            begin_to_look(&at_halt);
        if (last == BACK && (looking || !at_halt.hashes))
            refuse("the guest went on at the source before its memory was hashed: nothing is recorded", 0);
        if (last == BACK)
            return 1;
        if (state == HELD && !held_since)
            held_since = now();
        int has_ended = last == END || state == GONE || (state == HELD && (!has_monitor || last == HALT_SEEN));
        if (has_ended && !looking && (at_end.hashes || at_end.error || state == GONE))
            return 0;
        if (has_ended && !looking)
            begin_to_look(&at_end);
        if (state == HELD && !looking && now() - held_since > LONGEST_FOR_WORD * SECOND)
            refuse("it ended, and the guest was never seen to halt: nothing is recorded", 0);
        if (state == HELD && now() - held_since > LONGEST * SECOND)
            refuse("it ended, and was held for as long as may be, before its memory was hashed: nothing is recorded", 0);
    }
}

int main(int count, char **words)
{
    char path[64], name[NAME_LENGTH + 1];
    if ((count != 3 && (count != 4 || strcmp(words[3], "stopped"))) || take_key())
        return 2;
    process = atoi(words[1]);
    folder = words[2];
    sprintf(path, "/proc/%d/mem", process);
    name_of_key(name);
    int is_target = count == 4;
    signal(SIGPIPE, SIG_IGN);
    signal(SIGCHLD, note_child);
    sigset_t blocked;
    sigemptyset(&blocked);
    sigaddset(&blocked, SIGCHLD);
    sigprocmask(SIG_BLOCK, &blocked, &while_waiting);
    if (postcopy_recording_join(folder, name))
        refuse(errno == EEXIST ? "the folder is of another key" : folder, errno == EEXIST ? 0 : errno);
    if ((memory = open(path, O_RDONLY | O_CLOEXEC)) < 0)
        refuse(path, errno);
    sprintf(path, "/proc/%d/pagemap", process);
    page_map = open(path, O_RDONLY | O_CLOEXEC);
    int error = find_blocks(process, &blocks);
    if (error)
        refuse(error == ENOENT ? "it has no guest's memory: is it a QEMU?" : "its memory cannot be found", error == ENOENT ? 0 : error);
    if (!is_target && ptrace(PTRACE_SEIZE, process, 0, PTRACE_O_TRACEEXIT))
        refuse("it cannot be attached to", errno);
    sprintf(path, "ready %u %lu", blocks.count, blocks.pages);
    tell(path);
    if (is_target) {
        begin_to_look(&at_end);
        end_look();
        record_target(&at_end);
        return 0;
    }
    int is_back = watch();
    let_go();
    record(is_back ? &at_halt : compared(), is_back);
    return 0;
}
