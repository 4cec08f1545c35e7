/* What tests/test_recorded_calls.py asks of the recorder:

       recording calls FOLDER                     makes the calls that standard input lists, and tells the numbers
       recording threads FOLDER THREADS RECORDS   appends from threads, each record with the number of the thread's one before
       recording locked FOLDER THREADS RECORDS    appends under a lock, each record with the place that it has to have
       recording endless FOLDER THREADS           appends until it is killed; ANSWERED in the folder has what was answered
       recording full FOLDER [COMMAND]            appends until a record is lost, and tells how many were not, and why; it runs the command
                                                  behind the first thousand
       recording closed FOLDER FILE FROM RECORDS  closes all descriptors from a number on, opens the file as often, and appends
       recording refused FOLDER                   calls that record nothing
       recording forked FOLDER                    records on, where forked children end in each way that they have
       recording stray FOLDER                     has a forked child call on its parent's log
       recording late FOLDER                      has forked children call on logs that their parent has closed meanwhile
       recording elsewhere FOLDER                 has a thread append once the process has another working folder
       recording leaving FOLDER                   closes logs while threads end that appended to them
       recording named FOLDER                     names of recordings
       recording moved FOLDER PAGES               a migration of so many pages; the last comes as zeros, and is read so
       recording hash                             the hash of each page of standard input
       recording speed FOLDER RECORDS             how much processor a record takes

   With WRITTEN in its environment, no file of a log is mapped: any file system is taken for one that is not known to keep what it gave. */
#define _GNU_SOURCE
#include <errno.h>
#include <fcntl.h>
#include <inttypes.h>
#include <pthread.h>
#include <signal.h>
#include <stdatomic.h>
#include <stdio.h>
#include <stdlib.h>
#include <string.h>
#include <sys/mman.h>
#include <sys/stat.h>
#include <sys/syscall.h>
#include <sys/vfs.h>
#include <sys/wait.h>
#include <time.h>
#include <unistd.h>

#include "../postcopy_record.h"

#define THREADS_MAX 16

static void want(int is_so, const char *what)
{
    if (!is_so) {
        printf("failed: %s\n", what);
        exit(1);
    }
}

/* What the recorder calls for fstatfs. */
int __real_fstatfs(int file, struct statfs *told);
int __wrap_fstatfs(int file, struct statfs *told);

int __wrap_fstatfs(int file, struct statfs *told)
{
    int answer = __real_fstatfs(file, told);
    if (getenv("WRITTEN"))
        told->f_type = 0;
    return answer;
}

/* The calls by their names, with so many numbers and perhaps contents. */

typedef uint32_t call_0(postcopy_log *);
typedef uint32_t call_1(postcopy_log *, uint32_t);
typedef uint32_t call_2(postcopy_log *, uint32_t, uint32_t);

static const struct {
    const char *name;
    call_0 *none;
    call_1 *one;
    call_2 *two;
} calls[] = {
    {"machine", NULL, NULL, postcopy_record_machine},
    {"machine_with_lane", NULL, NULL, postcopy_record_machine_with_lane},
    {"release", NULL, NULL, postcopy_record_release},
    {"miss", NULL, NULL, postcopy_record_miss},           {"halt", postcopy_record_halt, NULL, NULL},
    {"resume", NULL, postcopy_record_resume, NULL},       {"see", NULL, postcopy_record_see, NULL},
    {"halted", NULL, postcopy_record_halted, NULL},       {"state", postcopy_record_state, NULL, NULL},
    {"again", NULL, postcopy_record_again, NULL},         {"ask", NULL, postcopy_record_ask, NULL},
    {"ask_sent", NULL, postcopy_record_ask_sent, NULL},   {"done", postcopy_record_done, NULL, NULL},
    {"back", postcopy_record_back, NULL, NULL},
    {"down", NULL, postcopy_record_down, NULL},           {"up", NULL, postcopy_record_up, NULL},
    {"got", NULL, postcopy_record_got, NULL},             {"got_sent", NULL, postcopy_record_got_sent, NULL},
    {"pull", NULL, postcopy_record_pull, NULL},           {"pull_sent", NULL, postcopy_record_pull_sent, NULL},
    {"ready", postcopy_record_ready, NULL, NULL},         {"fault", NULL, postcopy_record_fault, NULL},
    {"join", NULL, postcopy_record_join, NULL},           {"want", NULL, postcopy_record_want, NULL},
    {"zero", NULL, postcopy_record_zero, NULL},           {"skip", NULL, postcopy_record_skip, NULL},
    {"all", postcopy_record_all, NULL, NULL},
};

/* Contents of pages, one page behind the other, of which those have not come that begin with the greatest number. */
struct memory {
    const uint64_t *contents;
    size_t cells;
};

static int contents_of(void *context, uint32_t page, uint64_t *values)
{
    const struct memory *memory = context;
    memcpy(values, memory->contents + page * memory->cells, memory->cells * sizeof *values);
    return *values != UINT64_MAX;
}

static uint32_t make_call(postcopy_log *log, const char *name, const uint64_t *numbers, const uint64_t *contents, size_t cells)
{
    if (!strcmp(name, "read"))
        return postcopy_record_read(log, numbers[0], numbers[1], numbers[2], numbers[3]);
    if (!strcmp(name, "write"))
        return postcopy_record_write(log, numbers[0], numbers[1], numbers[2], numbers[3]);
    if (!strcmp(name, "initial"))
        return postcopy_record_initial(log, numbers[0], contents, cells);
    if (!strcmp(name, "send"))
        return postcopy_record_send(log, numbers[0], contents, cells);
    if (!strcmp(name, "read_all")) {
        struct memory memory = {contents, cells / numbers[2]};
        return postcopy_record_read_all(log, numbers[0], numbers[1], numbers[2], memory.cells, contents_of, &memory);
    }
    if (!strcmp(name, "place"))
        return postcopy_record_place(log, numbers[0], numbers[1], contents, cells);
    for (size_t n = 0; n < sizeof calls / sizeof *calls; n++)
        if (!strcmp(name, calls[n].name))
            return calls[n].none  ? calls[n].none(log)
                   : calls[n].one ? calls[n].one(log, numbers[0])
                                  : calls[n].two(log, numbers[0], numbers[1]);
    want(0, name);
    return 0;
}

/* A line is PARTY CALL, numbers, and contents as `=` and digits. */
static void make_calls(const char *folder)
{
    static const char *const parties[] = {"machine", "guest", "source", "link", "lane", "pager"};
    postcopy_log *logs[6] = {0};
    char *text = NULL;
    size_t room = 0;
    while (getline(&text, &room, stdin) > 0) {
        uint64_t numbers[4] = {0}, contents[512];
        size_t count = 0, cells = 0, party = 0;
        const char *name = strtok(text, " \n");
        while (strcmp(parties[party], name))
            party++;
        if (!logs[party])
            logs[party] = postcopy_log_open(folder, name, 0);
        name = strtok(NULL, " \n");
        for (char *word; (word = strtok(NULL, " \n"));) {
            if (*word != '=') {
                numbers[count++] = strtoull(word, NULL, 10);
                continue;
            }
            for (word++; *word; word += 16)
                want(sscanf(word, "%16" SCNx64, &contents[cells++]) == 1, "contents");
        }
        printf("%" PRIu32 "\n", make_call(logs[party], name, numbers, contents, cells));
    }
    free(text);
    for (int party = 0; party < 6; party++)
        postcopy_log_close(logs[party]);
}

/* Threads. */

static postcopy_log *guest;
static long records;
static pthread_barrier_t begun;
static pthread_mutex_t lock = PTHREAD_MUTEX_INITIALIZER;
static uint64_t turn;
static volatile uint32_t *answered; /* by thread, what its last call answered */

static void *append(void *what)
{
    uint32_t vcpu = (uintptr_t)what, last = POSTCOPY_LOST;
    for (long n = 0; n < records; n++) {
        if (n % 1000 == 0) /* (so that no thread is through before another has begun) */
            pthread_barrier_wait(&begun);
        uint32_t number = postcopy_record_write(guest, vcpu, 0, 0, last);
        want(number != POSTCOPY_LOST && (last == POSTCOPY_LOST || number > last), "a thread's numbers rise");
        last = number;
    }
    return NULL;
}

static void *append_locked(void *what)
{
    for (long n = 0; n < records; n++) {
        pthread_mutex_lock(&lock);
        want(postcopy_record_write(guest, (uintptr_t)what, 0, 0, turn) == turn, "a number under a lock");
        turn++;
        pthread_mutex_unlock(&lock);
    }
    return NULL;
}

/* Records of many lengths; each has its thread's number and its contents tell the last one that was answered. */
static void *append_endlessly(void *what)
{
    uint32_t thread = (uintptr_t)what;
    uint64_t contents[512] = {0};
    for (size_t n = 0;; n++) {
        size_t cells = n * 7 % 512 + 1;
        contents[0] = contents[cells - 1] = answered[thread];
        answered[thread] = postcopy_record_send(guest, thread, contents, cells);
        contents[cells - 1] = 0;
    }
    return NULL;
}

static void run_threads(const char *folder, const char *party, long count, void *(*of)(void *))
{
    pthread_t threads[THREADS_MAX];
    guest = postcopy_log_open(folder, party, 0);
    want(guest && count <= THREADS_MAX, "a log");
    pthread_barrier_init(&begun, NULL, count);
    for (long n = 0; n < count; n++)
        want(pthread_create(&threads[n], NULL, of, (void *)(uintptr_t)n) == 0, "a thread");
    for (long n = 0; n < count; n++)
        pthread_join(threads[n], NULL);
    want(postcopy_log_error(guest) == 0, "no error");
    postcopy_log_close(guest);
}

static void map_answers(const char *folder)
{
    char path[4096];
    snprintf(path, sizeof path, "%s/ANSWERED", folder);
    int file = open(path, O_RDWR | O_CREAT, 0666);
    want(file >= 0 && ftruncate(file, 4096) == 0, path);
    answered = mmap(NULL, 4096, PROT_READ | PROT_WRITE, MAP_SHARED, file, 0);
    for (int n = 0; n < THREADS_MAX; n++)
        answered[n] = POSTCOPY_LOST;
}

/* Calls that record nothing. */

static void fill(const char *folder, const char *command)
{
    postcopy_log *log = postcopy_log_open(folder, "guest", 0);
    want(log != NULL, "a log");
    uint32_t kept = 0;
    errno = 4321;
    for (uint32_t number; (number = postcopy_record_write(log, 0, 0, 0, kept)) != POSTCOPY_LOST; kept++) {
        want(number == kept && errno == 4321, "a number; errno stays");
        if (command && kept == 999)
            want(system(command) != -1, command);
        errno = 4321;
    }
    want(errno == 4321, "errno stays");
    int error = postcopy_log_error(log);
    for (int n = 0; n < 3; n++)
        want(postcopy_record_halt(log) == POSTCOPY_LOST, "a log that has ended");
    want(postcopy_log_error(log) == error, "the first error");
    postcopy_log_close(log);
    printf("%" PRIu32 " %s\n", kept, strerrorname_np(error));
}

static void refuse(const char *folder)
{
    want(postcopy_record_halt(NULL) == POSTCOPY_LOST && postcopy_log_error(NULL) == 0, "no log");
    postcopy_log_close(NULL);
    errno = 0;
    want(!postcopy_log_open(folder, "guests", 0) && errno == EINVAL, "no party");
    want(!postcopy_log_open("/dev/null/none", "guest", 0) && errno == ENOTDIR, "no folder");

    postcopy_log *log = postcopy_log_open(folder, "guest", 7);
    errno = 4321;
    want(postcopy_record_halt(log) == 7 && errno == 4321, "the first number; errno stays");
    fflush(stdout);
    if (fork() == 0) {
        int is_right = postcopy_record_halt(log) == POSTCOPY_LOST;
        postcopy_log_close(log);
        postcopy_log *own = postcopy_log_open(folder, "pager", 0);
        _exit(is_right && postcopy_record_ready(own) == 0 ? 0 : 1);
    }
    int status;
    wait(&status);
    want(WIFEXITED(status) && WEXITSTATUS(status) == 0, "a forked child");
    want(postcopy_record_resume(log, 1) == 8, "the parent goes on");
    want(postcopy_record_done(log) == POSTCOPY_LOST && postcopy_log_error(log) == EINVAL, "another party's record");
    want(postcopy_record_halt(log) == POSTCOPY_LOST, "the log has ended");
    postcopy_log_close(log);

    log = postcopy_log_open(folder, "link", 0);
    want(postcopy_record_down(log, 4) == 0 && postcopy_log_hand_over(log) == 1, "a log that is handed over");
    log = postcopy_log_open(folder, "link", 1);
    want(postcopy_record_down(log, 5) == 1, "a log that is gone on with");
    postcopy_log_close(log);
    want(postcopy_log_hand_over(NULL) == POSTCOPY_LOST, "no log to be handed over");
    log = postcopy_log_open(folder, "lane", 3);
    want(postcopy_record_up(log, 1) == POSTCOPY_LOST && postcopy_log_hand_over(log) == POSTCOPY_LOST, "a log with a lost record");
    errno = 0;
    want(!postcopy_log_open(folder, "guest", POSTCOPY_LOST) && errno == EINVAL, "what was not handed over");

    uint64_t contents[513] = {0};
    log = postcopy_log_open(folder, "source", POSTCOPY_LOST - 2);
    want(postcopy_record_send(log, 0, contents, 512) == POSTCOPY_LOST - 2, "the longest record");
    want(postcopy_log_hand_over(log) == POSTCOPY_LOST - 1, "the greatest number");
    for (size_t cells = 0; cells <= 513; cells += 513) {
        struct memory memory = {contents, cells};
        log = postcopy_log_open(folder, "guest", 0);
        want(postcopy_record_read_all(log, 0, 1, 1, cells, contents_of, &memory) == POSTCOPY_LOST && postcopy_log_error(log) == EINVAL, "pages of no cells, or of too many");
        postcopy_log_close(log);
    }
    log = postcopy_log_open(folder, "source", POSTCOPY_LOST - 1);
    want(postcopy_record_state(log) == POSTCOPY_LOST && postcopy_log_error(log) == EOVERFLOW, "no number left");
    postcopy_log_close(log);
    log = postcopy_log_open(folder, "source", 0);
    want(postcopy_record_send(log, 0, contents, 513) == POSTCOPY_LOST && postcopy_log_error(log) == EINVAL, "too many cells");
    postcopy_log_close(log);
    log = postcopy_log_open(folder, "pager", 0);
    want(postcopy_record_place(log, 0, 0, NULL, 1) == POSTCOPY_LOST && postcopy_log_error(log) == EINVAL, "no contents");
    postcopy_log_close(log);
}

/* Forked children, which leave their parent's log alone however they end: FORKS says how. */

enum { EXITED, CLOSED, ENDED, RETURNED, FORKS };

static void *fork_in_thread(void *what)
{
    int how = (uintptr_t)what;
    want(postcopy_record_read(guest, 0, 0, 0, how) != POSTCOPY_LOST, "a record in front of a fork");
    fflush(stdout);
    pid_t child = fork();
    if (child == 0) {
        if (how == CLOSED)
            postcopy_log_close(guest);
        if (how == ENDED)
            pthread_exit(NULL);
        if (how == RETURNED)
            return NULL;
        exit(0);
    }
    int status;
    waitpid(child, &status, 0);
    want(WIFEXITED(status) && WEXITSTATUS(status) == 0, "a child's end");
    for (int n = 0; n < 10000; n++)
        want(postcopy_record_read(guest, 0, 0, 0, how) != POSTCOPY_LOST, "the parent's records");
    return NULL;
}

static void fork_children(const char *folder)
{
    guest = postcopy_log_open(folder, "guest", 0);
    for (uintptr_t how = 0; how < FORKS; how++) {
        pthread_t thread;
        want(pthread_create(&thread, NULL, fork_in_thread, (void *)how) == 0, "a thread");
        pthread_join(thread, NULL);
        if (how != RETURNED)
            fork_in_thread((void *)how);
    }
    want(postcopy_log_hand_over(guest) == (2 * FORKS - 1) * 10001, "the number of the records");
}

/* A forked child that calls on its parent's log: nothing of the log is lost, and its last line tells of the call. */
static void stray(const char *folder)
{
    guest = postcopy_log_open(folder, "guest", 0);
    want(postcopy_record_halt(guest) == 0, "a record in front of a fork");
    fflush(stdout);
    if (fork() == 0)
        _exit(postcopy_record_see(guest, 1) != POSTCOPY_LOST || postcopy_log_error(guest) != EPERM);
    int status;
    wait(&status);
    want(WIFEXITED(status) && WEXITSTATUS(status) == 0, "a child's call");
    want(postcopy_log_error(guest) == EPERM, "what its parent is told");
    want(postcopy_record_resume(guest, 1) == 1, "the parent goes on");
    want(postcopy_log_hand_over(guest) == 2, "another process may go on");
}

/* Forked children that call on a log when their parent has closed it: one that may open no file of its parent's, one that has closed what it was
   given and opened something else, one that the C library does not know of, and one that does not call. */
static void late(const char *folder)
{
    enum { NO_RIGHT, NOTHING_OPEN, UNKNOWN, SILENT };
    for (int how = NO_RIGHT; how <= SILENT; how++) {
        int go[2], status;
        want(pipe(go) == 0, "a pipe");
        guest = postcopy_log_open(folder, "guest", 2 * how);
        want(postcopy_record_halt(guest) == 2 * (uint32_t)how, "a record in front of a fork");
        fflush(stdout);
        if ((how == UNKNOWN ? syscall(SYS_clone, SIGCHLD, 0, 0, 0, 0) : fork()) == 0) {
            char byte;
            int is_so = read(go[0], &byte, 1) == 1;
            if (how == NO_RIGHT)
                is_so &= getuid() != 0 || (setgid(65534) == 0 && setuid(65534) == 0);
            for (int file = 3; how == NOTHING_OPEN && file < 64; file++)
                dup2(1, file);
            errno = ERANGE;
            if (how != SILENT)
                is_so &= postcopy_record_see(guest, 1) == POSTCOPY_LOST && postcopy_record_see(guest, 1) == POSTCOPY_LOST && errno == ERANGE;
            _exit(!is_so);
        }
        want(postcopy_record_resume(guest, 1) == 2 * (uint32_t)how + 1, "the parent goes on");
        if (how != NO_RIGHT)
            postcopy_log_close(guest);
        else
            want(postcopy_log_hand_over(guest) == 2, "another process may go on");
        want(write(go[1], "", 1) == 1, "a word to the child");
        wait(&status);
        want(WIFEXITED(status) && WEXITSTATUS(status) == 0, "a child's late call");
        close(go[0]);
        close(go[1]);
    }
}

/* A program that closes what it did not open, and then opens its own file, which gets the numbers: nothing is done to that. Of the log, a file
   is closed that this thread writes, or one of a thread that ends then. */

static void *append_and_wait(void *log)
{
    want(postcopy_record_halt(log) == 0, "a record of a thread");
    pthread_barrier_wait(&begun);
    pthread_barrier_wait(&begun);
    return NULL;
}

static void close_all(const char *folder, const char *name, int from, long count)
{
    int files[16];
    pthread_t thread;
    struct stat found, own;
    postcopy_log *log = postcopy_log_open(folder, "guest", 0);
    pthread_barrier_init(&begun, NULL, 2);
    want(log && pthread_create(&thread, NULL, append_and_wait, log) == 0, "a log and a thread");
    pthread_barrier_wait(&begun);
    want(postcopy_record_halt(log) == 1 && postcopy_log_error(log) == 0, "a record, and no error");
    for (int file = from; file < 64; file++)
        close(file);
    for (int n = 0; n < 16; n++)
        want((files[n] = open(name, O_RDWR)) >= from, name);
    pthread_barrier_wait(&begun);
    pthread_join(thread, NULL);
    for (long n = 0; n < count; n++)
        postcopy_record_halt(log);
    want(postcopy_log_error(log) == EBADF, "the log is lost");
    want(postcopy_log_hand_over(log) == POSTCOPY_LOST, "nobody goes on with it");
    want(stat(name, &own) == 0, name);
    for (int n = 0; n < 16; n++)
        want(fstat(files[n], &found) == 0 && found.st_ino == own.st_ino, "a file of its own is open");
}

/* A process that changes its working folder, and a thread that appends for the first time then. */

static void *append_one(void *log)
{
    want(postcopy_record_halt(log) == 0, "a record of a thread, from another working folder");
    return NULL;
}

static void elsewhere(char *folder)
{
    pthread_t thread;
    char *name = strrchr(folder, '/');
    *name = 0;
    want(chdir(folder) == 0, folder);
    postcopy_log *log = postcopy_log_open(name + 1, "guest", 0);
    want(chdir("/") == 0, "the root");
    want(pthread_create(&thread, NULL, append_one, log) == 0, "a thread");
    pthread_join(thread, NULL);
    postcopy_log_close(log);
}

/* Threads that have appended, and end while the log is closed. */

static atomic_int has_left;

static void *append_and_leave(void *log)
{
    want(postcopy_record_halt(log) != POSTCOPY_LOST, "a record of a thread that leaves");
    atomic_fetch_add(&has_left, 1);
    return NULL;
}

static void *open_and_leave(void *folder)
{
    guest = postcopy_log_open(folder, "guest", records);
    return NULL;
}

static void leave(char *folder)
{
    for (int turn = 0; turn < 200; turn++) {
        pthread_t threads[4];
        records = 4 * turn;
        want(pthread_create(&threads[0], NULL, open_and_leave, folder) == 0, "a thread");
        pthread_join(threads[0], NULL);
        postcopy_log *log = guest;
        atomic_store(&has_left, 0);
        for (int n = 0; n < 4; n++)
            want(pthread_create(&threads[n], NULL, append_and_leave, log) == 0, "a thread");
        while (atomic_load(&has_left) < 4) {
        }
        want(postcopy_log_hand_over(log) == 4 * turn + 4u, "the number of the records");
        for (int n = 0; n < 4; n++)
            pthread_join(threads[n], NULL);
    }
}

static void name(const char *folder)
{
    char other[4096], behind[4096], longest[POSTCOPY_NAME_SIZE + 1];
    for (int length = POSTCOPY_NAME_SIZE - 2; length <= POSTCOPY_NAME_SIZE; length++) {
        int is_name = length < POSTCOPY_NAME_SIZE;
        snprintf(other, sizeof other, "%s-%d", folder, length);
        snprintf(longest, sizeof longest, "%0*d", length, 0);
        want(is_name ? postcopy_recording_join(other, longest) == 0 : postcopy_recording_join(other, longest) == -1 && errno == EINVAL, longest);
        want(!is_name || (postcopy_recording_join(other, longest) == 0 && postcopy_recording_join(other, "0") == -1 && errno == EEXIST), "a long name's folder");
        postcopy_log *log = postcopy_log_open(other, "guest", 0);
        want(log && (strcmp(postcopy_log_recording(log), longest) == 0) == is_name, "a log of a long name");
        postcopy_log_close(log);
    }
    snprintf(other, sizeof other, "%s-other", folder);
    errno = 0;
    want(postcopy_recording_join(folder, "a b") == -1 && errno == EINVAL, "what is no name");
    want(postcopy_recording_join(folder, "") == -1 && errno == EINVAL, "an empty name");
    want(!*postcopy_log_recording(NULL), "the name of no log");
    postcopy_log *log = postcopy_log_open(folder, "guest", 0), *second = postcopy_log_open(folder, "pager", 0);
    const char *made = postcopy_log_recording(log);
    want(strlen(made) == 32 && !strcmp(made, postcopy_log_recording(second)), "a name that is made");
    want(postcopy_recording_join(folder, made) == 0, "the name that it has");
    want(postcopy_recording_join(folder, "another") == -1 && errno == EEXIST, "another name");
    want(postcopy_recording_join(other, made) == 0, "a second machine");
    postcopy_log *third = postcopy_log_open(other, "source", 0);
    want(!strcmp(made, postcopy_log_recording(third)), "the name at a second machine");
    postcopy_log_close(log);
    postcopy_log_close(second);
    postcopy_log_close(third);
    snprintf(other, sizeof other, "%s/recording-name", folder);
    want(truncate(other, 5) == 0, other);
    want(!postcopy_log_open(folder, "guest", 0) && errno == EBADMSG, "a name that was cut");
    want(unlink(other) == 0 && mkfifo(other, 0666) == 0, other);
    want(!postcopy_log_open(folder, "guest", 0) && errno == EBADMSG, "a pipe that nobody writes");
    want(postcopy_recording_join(folder, "another") == -1 && errno == EBADMSG, "a pipe has no name");
    want(unlink(other) == 0 && mkdir(other, 0777) == 0, other);
    want(!postcopy_log_open(folder, "guest", 0) && errno == EBADMSG, "a folder has no name");
    want(rmdir(other) == 0, other);
    for (int is_there = 0; is_there < 2; is_there++) {
        snprintf(behind, sizeof behind, is_there ? "%s-other/recording-name" : "%s-none", folder);
        want(symlink(behind, other) == 0, other);
        want(!postcopy_log_open(folder, "guest", 0) && errno == ELOOP, "a link");
        want(postcopy_recording_join(folder, "another") == -1 && errno == ELOOP, "a link has no name");
        want(unlink(other) == 0, other);
    }
}

static void move(const char *folder, uint32_t pages)
{
    static const char *const parties[] = {"machine", "guest", "source", "pager"};
    static uint64_t page[512], zeros[512];
    postcopy_log *logs[4];
    for (int n = 0; n < 4; n++)
        want((logs[n] = postcopy_log_open(folder, parties[n], 0)) != NULL, parties[n]);
    for (int cell = 0; cell < 512; cell++)
        page[cell] = 7;
    postcopy_record_machine(logs[0], pages, 512);
    for (uint32_t n = 0; n < pages; n++)
        postcopy_record_initial(logs[0], n, page, 512);
    postcopy_record_halted(logs[2], postcopy_record_halt(logs[1]));
    postcopy_record_got_sent(logs[3], postcopy_record_state(logs[2]));
    postcopy_record_resume(logs[1], postcopy_record_ready(logs[3]));
    uint32_t got = postcopy_record_got_sent(logs[3], postcopy_record_send(logs[2], pages - 1, zeros, 512));
    postcopy_record_see(logs[1], postcopy_record_place(logs[3], pages - 1, got, zeros, 512));
    postcopy_record_read(logs[1], 0, pages - 1, 0, 0);
    for (int n = 0; n < 4; n++)
        postcopy_log_close(logs[n]);
}

static void hash(void)
{
    char page[4096];
    size_t length;
    while ((length = fread(page, 1, sizeof page, stdin)) > 0)
        printf("%" PRIu64 "\n", postcopy_page_hash(page, length));
}

static void measure(const char *folder, long count)
{
    struct timespec before, after;
    postcopy_log *log = postcopy_log_open(folder, "guest", 0);
    clock_gettime(CLOCK_PROCESS_CPUTIME_ID, &before);
    for (long n = 0; n < count; n++)
        postcopy_record_write(log, 1, n & 1023, 3, n * UINT64_C(0x9e3779b97f4a7c15));
    clock_gettime(CLOCK_PROCESS_CPUTIME_ID, &after);
    postcopy_log_close(log);
    printf("%.0f ns of processor a record\n", ((after.tv_sec - before.tv_sec) * 1e9 + (after.tv_nsec - before.tv_nsec)) / count);
}

int main(int count, char **words)
{
    char *what = count > 1 ? words[1] : "", *folder = count > 2 ? words[2] : "";
    long number = count > 3 ? atol(words[3]) : 0;
    records = count > 4 ? atol(words[4]) : 0;
    if (!strcmp(what, "calls"))
        make_calls(folder);
    else if (!strcmp(what, "threads"))
        run_threads(folder, "guest", number, append);
    else if (!strcmp(what, "locked"))
        run_threads(folder, "guest", number, append_locked);
    else if (!strcmp(what, "endless")) {
        map_answers(folder);
        run_threads(folder, "source", number, append_endlessly);
    } else if (!strcmp(what, "full"))
        fill(folder, count > 3 ? words[3] : NULL);
    else if (!strcmp(what, "refused"))
        refuse(folder);
    else if (!strcmp(what, "forked"))
        fork_children(folder);
    else if (!strcmp(what, "stray"))
        stray(folder);
    else if (!strcmp(what, "late"))
        late(folder);
    else if (!strcmp(what, "closed") && count > 5)
        close_all(folder, words[3], atoi(words[4]), atol(words[5]));
    else if (!strcmp(what, "elsewhere"))
        elsewhere(folder);
    else if (!strcmp(what, "leaving"))
        leave(folder);
    else if (!strcmp(what, "named"))
        name(folder);
    else if (!strcmp(what, "moved"))
        move(folder, number);
    else if (!strcmp(what, "hash"))
        hash();
    else if (!strcmp(what, "speed"))
        measure(folder, number);
    else
        want(0, "no such test");
    return 0;
}
