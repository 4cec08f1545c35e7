/* Records what the parties of a migration do: see postcopy_record.h.

   A thread's records of a log stand in a file of their own, FOLDER/PARTY.PROCESS.N:

       postcopy-records 1
       recording NAME
       log PARTY FIRST OPENING
       NUMBER RECORD       a line for each
       end COUNT           in the log's first file, where it was closed

   OPENING is the N of that file, and COUNT the number behind the last record. In the place of `end COUNT` stands `next COUNT`
   where the log was handed over, and `lost ERRNO` where a record was not written. The folder's file recording-name has NAME.

   A file grows by chunks, which are taken from the disk before they are mapped. Behind the last line there are bytes 0, until
   the thread or the log ends. On a file system that may not keep what was taken, a file is not mapped: each line is written to it.
   The end of a line is written last, so one that a process did not live to finish has none. */
#ifdef __cplusplus
#error "this file is C, also for a program in C++: compile it by a compiler for C, cc -c postcopy_record.c, and link its object"
#else

#ifndef _GNU_SOURCE
#define _GNU_SOURCE
#endif
#include "postcopy_record.h"

#include <errno.h>
#include <fcntl.h>
#include <inttypes.h>
#include <limits.h>
#include <pthread.h>
#include <stdatomic.h>
#include <stdio.h>
#include <stdlib.h>
#include <string.h>
#include <sys/mman.h>
#include <sys/random.h>
#include <sys/resource.h>
#include <sys/stat.h>
#include <sys/vfs.h>
#include <unistd.h>

#define CHUNK ((off_t)1 << 18)
#define CELLS_MAX 512
#define PATH_ROOM (PATH_MAX + 256) /* for a path of a folder, and what comes behind it */
#define WORDS_MAX 160 /* a head, or a line but for its contents, is so much shorter that a last line has room behind it */
#define AS_IT_IS (O_NOFOLLOW | O_NONBLOCK | O_CLOEXEC) /* how to open what somebody may have put there: a link, or a pipe that nobody writes */

/* Whether a forked child has made a call, which it cannot record, and whether the log was closed. */
enum { STRAYED = 1, CLOSED = 2 };

enum party { MACHINE, GUEST, SOURCE, LINK, LANE, PAGER, PARTIES };
static const char *const names[PARTIES] = {"machine", "guest", "source", "link", "lane", "pager"};

/* A descriptor that is closed, and one that was not its file's any more. */
enum { ENDED = -1, ASTRAY = -2 };

/* Which file a descriptor is of, and how long it is. */
struct identity {
    uint64_t device, inode;
    off_t length;
};
enum { ANY = -1 }; /* a length that is not compared */

/* The file of one thread. `at` is where its next line goes. If the file is mapped, `base` is its contents from `start` on, and otherwise
   memory for one line, which goes to `start`. A part belongs to the thread and to the log, and goes with the last of them. (A thread that lives
   on behind the end of the log is not told of its own end any more, as the key is gone: these few bytes stay, and neither file nor mapping.) */
struct part {
    struct part *next;
    atomic_int owners;
    unsigned owner; /* as the log's */
    int is_first;   /* whether it is the log's first, which is open as long as the log is */
    atomic_int file;
    struct identity made; /* the file, as it was made */
    int is_mapped;
    off_t start;
    char *base, *at;
};

struct postcopy_log {
    enum party party;
    unsigned owner;               /* the process that opened it, by this_process */
    _Atomic uint64_t next;        /* the next record's number */
    atomic_int error;             /* why the log has ended, or 0 */
    atomic_int *stray;            /* STRAYED and CLOSED, which a forked child shares with its parent */
    atomic_uint files;            /* how many names of files were tried */
    unsigned opening;             /* the N of its first file */
    _Atomic(struct part *) parts; /* of all threads */
    struct part *first;
    pthread_key_t mine; /* the calling thread's part */
    char name[POSTCOPY_NAME_SIZE];
    char head[WORDS_MAX]; /* how its files begin .. */
    char stem[];          /* .. and their names */
};

/* The number of this process among its parents and children. A child has its parent's mappings, and would write over what the parent writes.
   The system puts 0 into this page for a child, also for one that was made by `clone`, of which nobody is told. (Before Linux 4.14 it does not:
   then only a child of `fork` gets a number of its own.) */
static atomic_uint numbers, without_page, *process = &without_page;
static pthread_once_t watched = PTHREAD_ONCE_INIT;

static unsigned this_process(void)
{
    unsigned found = 0, next = atomic_load(process) ? 0 : atomic_fetch_add(&numbers, 1) + 1;
    if (next)
        atomic_compare_exchange_strong(process, &found, next);
    return atomic_load(process);
}

static void note_fork(void)
{
    atomic_store(process, 0);
}

static void watch_forks(void)
{
#ifdef MADV_WIPEONFORK
    size_t length = sysconf(_SC_PAGESIZE);
    void *page = mmap(NULL, length, PROT_READ | PROT_WRITE, MAP_PRIVATE | MAP_ANONYMOUS, -1, 0);
    if (page != MAP_FAILED && madvise(page, length, MADV_WIPEONFORK) == 0)
        process = page;
    else if (page != MAP_FAILED)
        munmap(page, length);
#endif
    pthread_atfork(NULL, NULL, note_fork);
}

/* Whether a file may have so many bytes. (One that grows past the process's limit is told by a signal, which would end it.) */
static int is_allowed(off_t length)
{
    struct rlimit limit;
    if (getrlimit(RLIMIT_FSIZE, &limit) || limit.rlim_cur == RLIM_INFINITY || (rlim_t)length <= limit.rlim_cur)
        return 1;
    errno = EFBIG;
    return 0;
}

/* The recording's name. */

static int is_name(const char *name)
{
    size_t length = strspn(name, "abcdefghijklmnopqrstuvwxyzABCDEFGHIJKLMNOPQRSTUVWXYZ0123456789-_.");
    return length && length < POSTCOPY_NAME_SIZE && !name[length];
}

static int make_name(char name[POSTCOPY_NAME_SIZE])
{
    unsigned char bytes[16];
    if (getentropy(bytes, sizeof bytes))
        return -1;
    for (size_t n = 0; n < sizeof bytes; n++)
        sprintf(name + 2 * n, "%02x", bytes[n]);
    return 0;
}

static int read_name(const char *path, char name[POSTCOPY_NAME_SIZE])
{
    int file = open(path, O_RDONLY | AS_IT_IS);
    if (file < 0)
        return -1;
    struct stat found;
    char text[POSTCOPY_NAME_SIZE + 1] = {0}, *end;
    int is_file = fstat(file, &found) == 0 && S_ISREG(found.st_mode), error = EBADMSG;
    if (is_file && read(file, text, POSTCOPY_NAME_SIZE) < 0)
        error = errno;
    close(file);
    if ((end = strchr(text, '\n')))
        *end = 0;
    if (end && is_name(text))
        return strcpy(name, text), 0;
    errno = error;
    return -1;
}

/* Makes the file with the name, whole at once, by way of another file. It fails where the file is there. */
static int write_name(const char *path, const char *name, const char *other)
{
    char own[PATH_ROOM + POSTCOPY_NAME_SIZE];
    sprintf(own, "%s.%s", path, other);
    int file = is_allowed(POSTCOPY_NAME_SIZE) ? open(own, O_WRONLY | O_CREAT | O_EXCL | O_CLOEXEC, 0666) : -1;
    if (file < 0)
        return -1;
    errno = ENOSPC;
    int is_done = dprintf(file, "%s\n", name) == (int)strlen(name) + 1 && link(own, path) == 0, error = errno;
    close(file);
    unlink(own);
    errno = error;
    return is_done ? 0 : -1;
}

/* The name of a folder's recording: the one that it has, or else the one that is given, or a new one. */
static int name_recording(const char *folder, const char *given, char name[POSTCOPY_NAME_SIZE])
{
    char path[PATH_ROOM], made[POSTCOPY_NAME_SIZE];
    if (strlen(folder) >= PATH_MAX) {
        errno = ENAMETOOLONG;
        return -1;
    }
    sprintf(path, "%s/recording-name", folder);
    if (mkdir(folder, 0777) && errno != EEXIST)
        return -1;
    if (read_name(path, name) == 0)
        return 0;
    if (errno != ENOENT || make_name(made) || (write_name(path, given ? given : made, made) && errno != EEXIST))
        return -1;
    return read_name(path, name);
}

int postcopy_recording_join(const char *folder, const char *recording)
{
    char name[POSTCOPY_NAME_SIZE];
    if (!is_name(recording))
        errno = EINVAL;
    else if (name_recording(folder, recording, name) == 0) {
        if (strcmp(name, recording) == 0)
            return 0;
        errno = EEXIST;
    }
    return -1;
}

/* Parts. */

static off_t used(const struct part *part)
{
    return part->start + (part->at - part->base);
}

/* Finds out what a descriptor is of, if it is open. (For `fstat`, a network's file system may send its server first all that was written.) */
static int identify(int file, struct identity *found)
{
#ifdef STATX_INO
    struct statx told;
    if (statx(file, "", AT_EMPTY_PATH | AT_STATX_DONT_SYNC, STATX_INO | STATX_SIZE, &told))
        return 0;
    *found = (struct identity){(uint64_t)told.stx_dev_major << 32 | told.stx_dev_minor, told.stx_ino, told.stx_size};
#else
    struct stat told;
    if (fstat(file, &told))
        return 0;
    *found = (struct identity){told.st_dev, told.st_ino, told.st_size};
#endif
    return 1;
}

/* Whether a descriptor is still one of the part's file; if not, errno tells so. A program may close what it did not open, as by closefrom(3), and
   open a file of its own that gets the number: nothing may be done to that one. (While a file is mapped, no other gets its inode. If it is not,
   another may, once it is removed: so that one would need its length, too.) */
static int is_its_file(const struct part *part, int file, off_t length)
{
    struct identity found;
    if (identify(file, &found) && found.device == part->made.device && found.inode == part->made.inode && (length == ANY || length == found.length))
        return 1;
    errno = EBADF;
    return 0;
}

/* Ends a part: its file has its lines and no more. (A thread may end while its log is closed; one of them does it.) */
static void end_part(struct part *part)
{
    int file = atomic_exchange(&part->file, ENDED);
    off_t length = part->is_mapped ? ANY : part->start;
    if (file < 0)
        return;
    if (part->is_mapped && is_its_file(part, file, length))
        (void)!ftruncate(file, used(part)); /* where it fails the bytes 0 stay, and are no line */
    if (is_its_file(part, file, length))
        close(file);
    else
        atomic_store(&part->file, ASTRAY);
    if (part->base)
        munmap(part->base, CHUNK);
}

static void disown_part(struct part *part)
{
    if (atomic_fetch_sub(&part->owners, 1) == 1)
        free(part);
}

/* What becomes of a part when its thread ends; nothing, where it is the parent's. */
static void leave_part(void *what)
{
    struct part *part = what;
    if (part->owner != atomic_load(process))
        return;
    if (!part->is_first)
        end_part(part);
    disown_part(part);
}

/* Maps a chunk of the file, which it gets first, from the page on where its next line goes. If that fails, errno tells why. */
static int map_chunk(struct part *part)
{
    off_t end = part->base ? used(part) : 0, start = end - end % sysconf(_SC_PAGESIZE);
    if (!is_allowed(start + CHUNK))
        return 0;
    do
        errno = is_its_file(part, part->file, ANY) ? posix_fallocate(part->file, start, CHUNK) : EBADF;
    while (errno == EINTR);
    if (errno)
        return 0;
    char *base = mmap(NULL, CHUNK, PROT_READ | PROT_WRITE, MAP_SHARED, part->file, start);
    if (base == MAP_FAILED)
        return 0;
    if (!is_its_file(part, part->file, ANY)) { /* (asked behind the call, it is known of what was mapped) */
        munmap(base, CHUNK);
        return 0;
    }
    if (part->base)
        munmap(part->base, CHUNK);
    part->start = start;
    part->base = base;
    part->at = base + (end - start);
    return 1;
}

/* Whether so many bytes can be put at `at`; if not, errno tells why. */
static inline int has_room(struct part *part, size_t length)
{
    return length <= (size_t)(part->base + CHUNK - part->at) || map_chunk(part);
}

/* Makes a file and opens it, or gives -1, with errno. It gets no number of a standard file that is closed: what the process prints would
   go there. */
static int open_new(const char *path)
{
    int file = open(path, O_RDWR | O_CREAT | O_EXCL | O_CLOEXEC, 0666);
    if (file < 0 || file > STDERR_FILENO)
        return file;
    int above = fcntl(file, F_DUPFD_CLOEXEC, STDERR_FILENO + 1), error = errno;
    close(file);
    if (above < 0)
        unlink(path);
    errno = error;
    return above;
}

/* Whether a file system keeps for a file what it gave to it, so that no store into the mapped file fails: of ext2 to ext4 and of tmpfs it is known.
   One that copies a block that is written again, as btrfs and zfs do, and xfs if somebody has cloned the file, may have no room for the copy then,
   and the process ends by SIGBUS. */
static int keeps_room(const struct statfs *system)
{
    return system->f_type == 0xef53 || system->f_type == 0x01021994;
}

/* Writes what stands in front of `at` to a file that is not mapped, if so many bytes may follow it: all of it, or nothing, and errno tells why. */
static int write_out(struct part *part, size_t behind)
{
    size_t length = part->at - part->base, done = 0;
    part->at = part->base;
    if (!is_allowed(part->start + length + behind))
        return 0;
    while (done < length && is_its_file(part, part->file, part->start + done)) {
        errno = ENOSPC;
        ssize_t count = pwrite(part->file, part->base + done, length - done, part->start + done);
        if (count <= 0 && errno != EINTR)
            break;
        done += count > 0 ? count : 0;
    }
    if (done == length) {
        part->start += length;
        return 1;
    }
    int error = errno;
    if (done && is_its_file(part, part->file, part->start + done))
        (void)!ftruncate(part->file, part->start); /* where it fails, half a line stays, which is none */
    errno = error;
    return 0;
}

/* Begins a part's file, which is open: it has room for a head, or memory for a line. If that fails, errno tells why. */
static int begin_file(struct part *part)
{
    struct statfs system;
    if (!identify(part->file, &part->made) || fstatfs(part->file, &system))
        return 0;
    part->is_mapped = keeps_room(&system);
    if (part->is_mapped)
        return map_chunk(part);
    char *base = mmap(NULL, CHUNK, PROT_READ | PROT_WRITE, MAP_PRIVATE | MAP_ANONYMOUS, -1, 0);
    if (base == MAP_FAILED)
        return 0;
    part->base = part->at = base;
    return 1;
}

/* Begins a part of the calling thread: NULL, with errno, where that cannot be done. */
static struct part *begin_part(postcopy_log *log)
{
    char path[PATH_ROOM];
    unsigned number;
    struct part *part = calloc(1, sizeof *part);
    if (!part)
        return NULL;
    part->owners = 2;
    part->owner = log->owner;
    part->is_first = !log->first;
    do {
        number = atomic_fetch_add(&log->files, 1);
        sprintf(path, "%s.%u", log->stem, number);
        part->file = open_new(path);
    } while (part->file < 0 && errno == EEXIST);
    if (part->is_first) {
        log->opening = number;
        sprintf(log->head, "postcopy-records 1\nrecording %s\nlog %s %" PRIu64 " %u\n", log->name, names[log->party], log->next, number);
    }
    int is_begun = part->file >= 0 && begin_file(part);
    if (is_begun)
        part->at = stpcpy(part->at, log->head);
    if (!is_begun || !(part->is_mapped || write_out(part, WORDS_MAX)) || (errno = pthread_setspecific(log->mine, part))) {
        int error = errno;
        if (part->file >= 0)
            unlink(path);
        end_part(part);
        free(part);
        errno = error;
        return NULL;
    }
    part->next = atomic_load(&log->parts);
    while (!atomic_compare_exchange_weak(&log->parts, &part->next, part)) {
    }
    return part;
}

/* Lines. */

static char *put_number(char *at, uint64_t number)
{
    char digits[20];
    int count = 0;
    do
        digits[count++] = '0' + number % 10;
    while (number /= 10);
    while (count)
        *at++ = digits[--count];
    return at;
}

static char *put_cells(char *at, const uint64_t *contents, size_t cells)
{
    for (size_t cell = 0; cell < cells; cell++)
        for (int shift = 60; shift >= 0; shift -= 4)
            *at++ = "0123456789abcdef"[contents[cell] >> shift & 15];
    return at;
}

/* A record: its word, numbers, and for some a page's contents. */
struct record {
    const char *word;
    int count;
    uint64_t numbers[4];
    int is_of_page;
    const uint64_t *contents;
    size_t cells;
};

static void put_line(struct part *part, uint64_t number, const struct record *record)
{
    char *at = put_number(part->at, number);
    *at++ = ' ';
    at = stpcpy(at, record->word);
    for (int n = 0; n < record->count; n++) {
        *at++ = ' ';
        at = put_number(at, record->numbers[n]);
    }
    if (record->is_of_page) {
        *at++ = ' ';
        at = put_cells(at, record->contents, record->cells);
    }
    __atomic_store_n(at, '\n', __ATOMIC_RELEASE);
    part->at = at + 1;
}

/* The log's last line. */
static void put_last(struct part *part, const char *word, uint64_t number)
{
    char *at = stpcpy(part->at, word);
    *at++ = ' ';
    at = put_number(at, number);
    __atomic_store_n(at, '\n', __ATOMIC_RELEASE);
    part->at = at + 1;
    if (!part->is_mapped)
        write_out(part, 0); /* where it fails the log has no end */
}

/* Puts into the file of a log that was closed that a record was not written, in the place of its last line. Answers whether this is the
   file: another may have its number or its name by now. */
static int amend_file(int file, const char *head)
{
    struct stat found;
    char text[WORDS_MAX + 1], lost[24];
    size_t length = strlen(head), count = sprintf(lost, "lost %d\n", EPERM);
    if (file < 0 || pread(file, text, length, 0) != (ssize_t)length || memcmp(text, head, length) || fstat(file, &found))
        return 0;
    off_t start = found.st_size > WORDS_MAX ? found.st_size - WORDS_MAX : 0;
    ssize_t end = pread(file, text, WORDS_MAX, start);
    text[end > 0 ? end - 1 : 0] = 0; /* the end of the last line */
    char *last = strrchr(text, '\n');
    if (!last || (strncmp(last, "\nend ", 5) && strncmp(last, "\nnext ", 6)))
        return 1;
    off_t at = start + (last + 1 - text);
    if (is_allowed(at + count) && pwrite(file, lost, count, at) == (ssize_t)count)
        (void)!ftruncate(file, at + count);
    return 1;
}

static void amend(const postcopy_log *log, int file)
{
    int error = errno;
    char path[PATH_ROOM];
    if (!amend_file(file, log->head)) {
        sprintf(path, "%s.%u", log->stem, log->opening);
        if ((file = open(path, O_RDWR | AS_IT_IS)) >= 0) {
            amend_file(file, log->head);
            close(file);
        }
    }
    errno = error;
}

/* Logs. */

/* Ends a log at the record that is not written: its number is taken, so nothing stands in its place. */
static uint32_t lose(postcopy_log *log, int error)
{
    int none = 0;
    atomic_fetch_add(&log->next, 1);
    atomic_compare_exchange_strong(&log->error, &none, error);
    return POSTCOPY_LOST;
}

/* Puts a record into the calling thread's file. Returns POSTCOPY_LOST, and errno tells why, where that cannot be done. */
static uint32_t put_record(postcopy_log *log, const struct record *record)
{
    struct part *part = pthread_getspecific(log->mine);
    if (!part && !(part = begin_part(log)))
        return POSTCOPY_LOST;
    if (!has_room(part, WORDS_MAX + 16 * record->cells))
        return POSTCOPY_LOST;
    uint64_t number = atomic_fetch_add(&log->next, 1);
    if (number >= POSTCOPY_LOST - 1) { /* the number behind the last record is one too */
        errno = EOVERFLOW;
        return POSTCOPY_LOST;
    }
    put_line(part, number, record);
    return part->is_mapped || write_out(part, WORDS_MAX) ? number : POSTCOPY_LOST;
}

static uint32_t append(postcopy_log *log, unsigned parties, struct record record)
{
    if (!log || atomic_load(&log->error))
        return POSTCOPY_LOST;
    if (log->owner != atomic_load(process)) {
        if (atomic_fetch_or(log->stray, STRAYED) == CLOSED)
            amend(log, atomic_load(&log->first->file));
        return POSTCOPY_LOST;
    }
    if (!(parties >> log->party & 1) || (record.is_of_page && !(record.contents && record.cells && record.cells <= CELLS_MAX)))
        return lose(log, EINVAL);
    int error = errno;
    uint32_t number = put_record(log, &record);
    if (number == POSTCOPY_LOST)
        lose(log, errno);
    errno = error;
    return number;
}

postcopy_log *postcopy_log_open(const char *folder, const char *party, uint32_t first)
{
    enum party which = MACHINE;
    while (which < PARTIES && strcmp(party, names[which]))
        which++;
    if (which == PARTIES || first == POSTCOPY_LOST) {
        errno = EINVAL;
        return NULL;
    }
    char name[POSTCOPY_NAME_SIZE];
    if (name_recording(folder, NULL, name))
        return NULL;
    pthread_once(&watched, watch_forks);
    char *path = realpath(folder, NULL); /* a thread begins its file later, where the process may have another working folder */
    if (!path)
        return NULL;
    size_t length = strlen(path) + strlen(party) + 32;
    postcopy_log *log = calloc(1, sizeof *log + length);
    if (!log) {
        free(path);
        errno = ENOMEM;
        return NULL;
    }
    log->party = which;
    log->owner = this_process();
    atomic_store(&log->next, first);
    strcpy(log->name, name);
    snprintf(log->stem, length, "%s/%s.%ld", path, party, (long)getpid());
    free(path);
    log->stray = mmap(NULL, sizeof *log->stray, PROT_READ | PROT_WRITE, MAP_SHARED | MAP_ANONYMOUS, -1, 0);
    int error = log->stray == MAP_FAILED ? errno : pthread_key_create(&log->mine, leave_part);
    if (!error && !(log->first = begin_part(log))) {
        error = errno;
        pthread_key_delete(log->mine);
    }
    if (!error)
        return log;
    if (log->stray != MAP_FAILED)
        munmap(log->stray, sizeof *log->stray);
    free(log);
    errno = error;
    return NULL;
}

const char *postcopy_log_recording(const postcopy_log *log)
{
    return log ? log->name : "";
}

/* Whether all descriptors of a log are still those of its files, or were. (A thread may end meanwhile, and give its own back.) */
static int has_files(const postcopy_log *log)
{
    int error = errno, is_so = 1;
    for (const struct part *part = atomic_load(&log->parts); part && is_so; part = part->next) {
        int file = atomic_load(&part->file);
        is_so = file == ENDED || (file >= 0 && (is_its_file(part, file, ANY) || atomic_load(&part->file) == ENDED));
    }
    errno = error;
    return is_so;
}

int postcopy_log_error(const postcopy_log *log)
{
    int error = log ? atomic_load(&log->error) : 0;
    if (error || !log)
        return error;
    if (log->owner == atomic_load(process) && !has_files(log))
        return EBADF;
    return atomic_load(log->stray) & STRAYED ? EPERM : 0;
}

/* Closes a log. Answers the number behind its last record, or POSTCOPY_LOST where one was lost, or where it is the parent's. (A child's call
   took no number, so that another process can go on; the last line tells of it.) */
static uint32_t close_log(postcopy_log *log, const char *word)
{
    if (!log)
        return POSTCOPY_LOST;
    int is_own = log->owner == atomic_load(process), error = postcopy_log_error(log);
    if (error == EBADF)
        lose(log, error);
    uint32_t count = is_own && !atomic_load(&log->error) ? atomic_load(&log->next) : POSTCOPY_LOST;
    struct part *mine = pthread_getspecific(log->mine);
    pthread_key_delete(log->mine);
    if (is_own)
        put_last(log->first, error ? "lost" : word, error ? (uint64_t)error : count);
    for (struct part *part = atomic_load(&log->parts), *next; part; part = next) {
        next = part->next;
        if (is_own)
            end_part(part);
        disown_part(part);
    }
    if (mine)
        disown_part(mine);
    if (is_own && atomic_fetch_or(log->stray, CLOSED) & STRAYED && !error)
        amend(log, -1);
    munmap(log->stray, sizeof *log->stray);
    free(log);
    return count;
}

uint32_t postcopy_log_hand_over(postcopy_log *log)
{
    return close_log(log, "next");
}

void postcopy_log_close(postcopy_log *log)
{
    close_log(log, "end");
}

/* The records. */

#define OF(party) (1u << (party))

/* Calls of no number, of one, two and four, of a page's contents, and of the machine, whose lane has a log or not. */
#define APPEND(parties, word, count, ...) { return append(log, parties, (struct record){word, count, {__VA_ARGS__}, 0, NULL, 0}); }
#define CALL_0(call, parties, word) \
    uint32_t postcopy_record_##call(postcopy_log *log) APPEND(parties, word, 0, 0)
#define CALL_1(call, parties, word) \
    uint32_t postcopy_record_##call(postcopy_log *log, uint32_t one) APPEND(parties, word, 1, one)
#define CALL_2(call, parties, word) \
    uint32_t postcopy_record_##call(postcopy_log *log, uint32_t one, uint32_t two) APPEND(parties, word, 2, one, two)
#define CALL_4(call, parties, word) \
    uint32_t postcopy_record_##call(postcopy_log *log, uint32_t one, uint32_t two, uint32_t three, uint64_t four) \
        APPEND(parties, word, 4, one, two, three, four)
#define CALL_MACHINE(call, lane) \
    uint32_t postcopy_record_##call(postcopy_log *log, uint32_t pages, uint32_t cells) \
        APPEND(OF(MACHINE), "pages", 3, pages, cells, lane)
#define CALL_PAGE(call, parties, word) \
    uint32_t postcopy_record_##call(postcopy_log *log, uint32_t page, const uint64_t *contents, size_t cells) \
    { \
        return append(log, parties, (struct record){word, 1, {page}, 1, contents, cells}); \
    }

CALL_MACHINE(machine, 0)
CALL_MACHINE(machine_with_lane, 1)
CALL_PAGE(initial, OF(MACHINE), "page")
CALL_4(read, OF(GUEST), "r")
CALL_4(write, OF(GUEST), "w")
CALL_2(release, OF(GUEST), "z")
CALL_2(miss, OF(GUEST), "miss")
CALL_0(halt, OF(GUEST), "halt")
CALL_1(resume, OF(GUEST), "resume")
CALL_1(see, OF(GUEST), "see")
CALL_1(halted, OF(SOURCE), "halted")
CALL_0(state, OF(SOURCE), "state")
CALL_PAGE(send, OF(SOURCE), "send")
CALL_1(again, OF(SOURCE), "again")
CALL_1(ask, OF(SOURCE), "ask")
CALL_1(ask_sent, OF(SOURCE), "ask-sent")
CALL_0(done, OF(SOURCE), "done")
CALL_0(back, OF(SOURCE), "back")
CALL_1(down, OF(LINK) | OF(LANE), "down")
CALL_1(up, OF(LINK), "up")
CALL_1(got, OF(PAGER), "got")
CALL_1(got_sent, OF(PAGER), "got-sent")
CALL_1(pull, OF(PAGER), "pull")
CALL_1(pull_sent, OF(PAGER), "pull-sent")
CALL_0(ready, OF(PAGER), "ready")
CALL_1(fault, OF(PAGER), "fault")
CALL_1(join, OF(PAGER), "join")
CALL_1(want, OF(PAGER), "want")
CALL_1(zero, OF(PAGER), "zero")
CALL_1(skip, OF(PAGER), "skip")
CALL_0(all, OF(PAGER), "all")

uint32_t postcopy_record_place(postcopy_log *pager, uint32_t page, uint32_t got, const uint64_t *contents, size_t cells)
{
    return append(pager, OF(PAGER), (struct record){"place", 2, {page, got}, 1, contents, cells});
}

uint32_t postcopy_record_read_all(postcopy_log *guest, uint32_t vcpu, uint32_t placement, uint32_t pages, size_t cells,
                                  int (*contents)(void *context, uint32_t page, uint64_t *values), void *context)
{
    uint64_t values[CELLS_MAX];
    uint32_t last = cells && cells <= CELLS_MAX ? postcopy_record_see(guest, placement) : append(guest, 0, (struct record){0});
    for (uint32_t page = 0; page < pages && last != POSTCOPY_LOST; page++)
        if (contents(context, page, values))
            for (uint32_t cell = 0; cell < cells; cell++)
                last = postcopy_record_read(guest, vcpu, page, cell, values[cell]);
    return last;
}

static inline uint64_t mix(uint64_t hash, uint64_t word)
{
    hash = (hash ^ word) * UINT64_C(0x9e3779b97f4a7c15);
    hash = (hash ^ hash >> 29) * UINT64_C(0xbf58476d1ce4e5b9);
    return hash ^ hash >> 32;
}

uint64_t postcopy_page_hash(const void *page, size_t length)
{
    const unsigned char *bytes = page;
    uint64_t hash = 0, any = 0, rest = 0;
    size_t at = 0;
    for (; length - at >= 8; at += 8) {
        uint64_t word = 0;
        for (int byte = 7; byte >= 0; byte--)
            word = word << 8 | bytes[at + byte];
        any |= word;
        hash = mix(hash, word);
    }
    for (size_t end = length; end > at; end--)
        rest = rest << 8 | bytes[end - 1];
    if (at < length)
        hash = mix(hash, rest);
    return any | rest ? (hash ? hash : 1) : 0;
}

#endif
