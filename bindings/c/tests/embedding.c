/* Calls the library as hostile surroundings do. Each line of the input is 'check SESSION CERT', 'replay SESSION RUNS', or
   'certify', 'audit', 'audit_all', 'missing', 'explain' or 'draw' with a SESSION, where a file named - is empty; 'explain_page',
   'explain_line' or 'draw_page' with a SESSION and a NUMBER; 'answers' with these, which asks all questions about the number, and
   'unknown', which asks one more that is none; or 'session', 'certificate' or 'order' with a FILE, which asks why
   this is refused as such a text. The texts and the room end where memory ends that may be touched.

   Each call is made with each allocation failing in turn, with rooms of each length up to the text's own, of a long text with the
   shortest and the longest of these, and by four threads at once on small stacks. For each line it writes the answer's numbers on a line, and then the answer's text. The first call that
   goes wrong ends it, with a message and status 1. */
#define _GNU_SOURCE
#include <postcopy.h>

#include <fcntl.h>
#include <pthread.h>
#include <stdio.h>
#include <stdlib.h>
#include <string.h>
#include <sys/mman.h>
#include <sys/stat.h>
#include <unistd.h>

_Static_assert(offsetof(postcopy_answer, kind) == 0 && offsetof(postcopy_answer, line) == 4, "layout");
_Static_assert(offsetof(postcopy_answer, reason) == 8 && offsetof(postcopy_answer, text_len) == 16, "layout");
_Static_assert(sizeof(postcopy_answer) == 24, "layout");
_Static_assert(offsetof(postcopy_refusal, kind) == 0 && offsetof(postcopy_refusal, line) == 4, "layout");
_Static_assert(offsetof(postcopy_refusal, column) == 8 && offsetof(postcopy_refusal, text_len) == 16, "layout");
_Static_assert(sizeof(postcopy_refusal) == 24, "layout");
_Static_assert(offsetof(postcopy_question, asks) == 0 && offsetof(postcopy_question, about) == 4, "layout");
_Static_assert(sizeof(postcopy_question) == 8, "layout");

enum { PATTERN = 0xa5, MARGIN = 64, THREADS = 4, ROUNDS = 3, STACK = 65536, ALL_LENGTHS = 256 };

/* How many allocations pass before one fails, or -1; whether those after it fail too; and how many blocks are there. */
static _Thread_local long passing = -1;
static _Thread_local int fail_on;
static _Thread_local long blocks;

void *__real_malloc(size_t size);
void *__real_realloc(void *at, size_t size);
void __real_free(void *at);

static int refused(void) {
    if (passing < 0) return 0;
    if (passing > 0) return passing--, 0;
    if (!fail_on) passing = -1;
    return 1;
}

void *__wrap_malloc(size_t size) {
    void *at = refused() ? NULL : __real_malloc(size);
    blocks += at != NULL;
    return at;
}

void *__wrap_realloc(void *at, size_t size) {
    void *to = refused() ? NULL : __real_realloc(at, size);
    blocks += !at && to;
    return to;
}

void __wrap_free(void *at) {
    blocks -= at != NULL;
    __real_free(at);
}

static void fail(const char *why, const char *job) {
    fprintf(stderr, "embedding: %s: %s\n", job, why);
    exit(1);
}

/* So many bytes, and after them memory that may not be touched. */
static uint8_t *guarded(size_t len) {
    size_t page = (size_t)sysconf(_SC_PAGESIZE), whole = (len + page - 1) / page * page;
    uint8_t *at = mmap(NULL, whole + page, PROT_READ | PROT_WRITE, MAP_PRIVATE | MAP_ANONYMOUS, -1, 0);
    if (at == MAP_FAILED || mprotect(at + whole, page, PROT_NONE)) abort();
    return at + whole - len;
}

static void release(uint8_t *at, size_t len) {
    size_t page = (size_t)sysconf(_SC_PAGESIZE), whole = (len + page - 1) / page * page;
    munmap(at + len - whole, whole + page);
}

static uint8_t *text_of(const char *name, size_t *len) {
    struct stat file = {0};
    int fd = strcmp(name, "-") ? open(name, O_RDONLY) : -1;
    if (strcmp(name, "-") && (fd < 0 || fstat(fd, &file))) fail("it cannot be read", name);
    *len = (size_t)file.st_size;
    uint8_t *at = guarded(*len);
    for (size_t got = 0; got < *len;) {
        ssize_t more = read(fd, at + got, *len - got);
        if (more <= 0) fail("it cannot be read", name);
        got += (size_t)more;
    }
    if (fd >= 0) close(fd);
    size_t page = (size_t)sysconf(_SC_PAGESIZE), whole = (*len + page - 1) / page * page;
    if (whole && mprotect(at + *len - whole, whole, PROT_READ)) abort();
    return at;
}

typedef struct {
    const char *line, *command;
    uint8_t *session, *other;
    size_t session_len, other_len;
    uint32_t number;
    postcopy_answer wanted;
    uint8_t *text;
} job;

/* The calls that write a text about a session. */
static const struct {
    const char *command;
    postcopy_answer (*call)(const uint8_t *session, size_t session_len, uint8_t *room, size_t room_len);
} writers[] = {{"certify", postcopy_certify}, {"audit", postcopy_audit}, {"audit_all", postcopy_audit_all},
               {"missing", postcopy_missing}, {"missing_pages", postcopy_missing_pages}, {"explain", postcopy_explain},
               {"draw", postcopy_draw}};

/* The calls that write a text about a page, or a line, of a session. */
static const struct {
    const char *command;
    postcopy_answer (*call)(const uint8_t *session, size_t session_len, uint32_t number, uint8_t *room, size_t room_len);
} topics[] = {{"explain_page", postcopy_explain_page}, {"explain_line", postcopy_explain_line}, {"draw_page", postcopy_draw_page}};

/* The kinds of texts of which it is asked why one is refused. */
static const struct {
    const char *command;
    uint32_t kind;
} refusals[] = {{"session", POSTCOPY_SESSION_TEXT}, {"certificate", POSTCOPY_CERT_TEXT}, {"order", POSTCOPY_RUNS_TEXT}};

/* Why a text is refused, as an answer that has the column in place of a reason. */
static postcopy_answer why(const job *it, uint32_t kind, uint8_t *room, size_t room_len) {
    postcopy_refusal refusal = postcopy_why(it->session, it->session_len, kind, room, room_len);
    return (postcopy_answer){.kind = refusal.kind, .line = refusal.line, .reason = refusal.column, .text_len = refusal.text_len};
}

static int same(postcopy_answer one, postcopy_answer other) {
    return one.kind == other.kind && one.line == other.line && one.reason == other.reason && one.text_len == other.text_len;
}

/* Whether the first bytes are the text, and all others the pattern. */
static int holds(const uint8_t *room, size_t len, const uint8_t *text, size_t text_len) {
    if (text_len && memcmp(room, text, text_len)) return 0;
    for (size_t i = text_len; i < len; i++) {
        if (room[i] != PATTERN) return 0;
    }
    return 1;
}

enum { LAST_QUESTION = POSTCOPY_ASKS_EXPLAIN_OBJECT, MANY = LAST_QUESTION + 1 };

/* The answers to the first questions, with room for more ends, and with room for one too few. */
static postcopy_answer answers(const job *it, size_t questions_len, uint8_t *room, size_t room_len) {
    postcopy_question questions[MANY];
    for (uint32_t i = 0; i < MANY; i++) questions[i] = (postcopy_question){.asks = i + 1, .about = it->number};
    size_t ends[MANY + 1], few[MANY + 1];
    memset(ends, PATTERN, sizeof ends), memset(few, PATTERN, sizeof few);
    long was_passing = passing;
    postcopy_answer with_few = postcopy_answers(it->session, it->session_len, questions, questions_len, few, questions_len - 1, room, room_len);
    passing = was_passing;
    postcopy_answer answer = postcopy_answers(it->session, it->session_len, questions, questions_len, ends, MANY + 1, room, room_len);
    if (!same(with_few, answer)) fail("another answer with few ends", it->line);
    int is_told = answer.kind != POSTCOPY_NO_MEMORY && answer.kind != POSTCOPY_NO_QUESTION;
    size_t written = is_told ? questions_len : 0;
    if (!holds((const uint8_t *)few, sizeof few, NULL, 0)) fail("ends were written that do not fit", it->line);
    if (!holds((const uint8_t *)(ends + written), sizeof ends - written * sizeof *ends, NULL, 0)) fail("ends were written behind the last", it->line);
    for (size_t i = 0; i + 1 < written; i++) {
        if (ends[i] > ends[i + 1]) fail("a text ends before it begins", it->line);
    }
    if (is_told && ends[questions_len - 1] != answer.text_len) fail("the last text does not end at the end", it->line);
    return answer;
}

static postcopy_answer call(const job *it, uint8_t *room, size_t room_len) {
    if (!strcmp(it->command, "answers")) return answers(it, LAST_QUESTION, room, room_len);
    if (!strcmp(it->command, "unknown")) return answers(it, MANY, room, room_len);
    if (!strcmp(it->command, "check")) return postcopy_check(it->session, it->session_len, it->other, it->other_len);
    if (!strcmp(it->command, "replay")) return postcopy_replay(it->session, it->session_len, it->other, it->other_len);
    for (size_t i = 0; i < sizeof writers / sizeof *writers; i++) {
        if (!strcmp(it->command, writers[i].command)) return writers[i].call(it->session, it->session_len, room, room_len);
    }
    for (size_t i = 0; i < sizeof topics / sizeof *topics; i++) {
        if (!strcmp(it->command, topics[i].command)) return topics[i].call(it->session, it->session_len, it->number, room, room_len);
    }
    for (size_t i = 0; i < sizeof refusals / sizeof *refusals; i++) {
        if (!strcmp(it->command, refusals[i].command)) return why(it, refusals[i].kind, room, room_len);
    }
    fail("no command", it->line);
    abort();
}

/* Makes the call with a room of this length; nothing but the room is written, and that only where the text fits. */
static postcopy_answer call_with_room(const job *it, size_t room_len, size_t text_len) {
    uint8_t *whole = guarded(MARGIN + room_len);
    memset(whole, PATTERN, MARGIN + room_len);
    long before = blocks;
    postcopy_answer answer = call(it, whole + MARGIN, room_len);
    passing = -1;
    if (blocks != before) fail("a block was not freed", it->line);
    if (!holds(whole, MARGIN, NULL, 0)) fail("bytes before the room were written", it->line);
    int fits = answer.kind != POSTCOPY_NO_MEMORY && text_len <= room_len;
    if (!holds(whole + MARGIN, room_len, it->text, fits ? text_len : 0)) fail("the room does not hold what it should", it->line);
    release(whole, MARGIN + room_len);
    return answer;
}

static void call_with_rooms(const job *it) {
    size_t text_len = it->wanted.text_len;
    for (size_t len = 0; len <= text_len + 1; len++) {
        if (text_len > ALL_LENGTHS && len == ALL_LENGTHS / 2) len = text_len - ALL_LENGTHS / 2;
        if (!same(call_with_room(it, len, text_len), it->wanted)) fail("another answer in another room", it->line);
    }
}

/* Makes the call with the first allocation refused, the second, and so on, until none is; answers how many there are. */
static long call_with_refusals(const job *it, int all_behind) {
    for (long nth = 0;; nth++) {
        passing = nth, fail_on = all_behind;
        postcopy_answer answer = call(it, it->text, 0);
        int none_was = passing > 0;
        passing = nth, fail_on = all_behind;
        if (!same(call_with_room(it, it->wanted.text_len, it->wanted.text_len), answer)) fail("another answer to the same refusal", it->line);
        if (none_was || same(answer, it->wanted)) {
            if (!same(answer, it->wanted)) fail("another answer with memory", it->line);
            if (none_was) return nth;
            continue;
        }
        if (!same(answer, (postcopy_answer){.kind = POSTCOPY_NO_MEMORY})) fail("a refused allocation changed the answer", it->line);
    }
}

static void *call_in_thread(void *given) {
    const job *it = given;
    for (int i = 0; i < ROUNDS; i++) {
        if (!same(call_with_room(it, it->wanted.text_len, it->wanted.text_len), it->wanted)) fail("another answer in a thread", it->line);
    }
    return NULL;
}

static void call_in_threads(job *it) {
    pthread_t threads[THREADS];
    pthread_attr_t how;
    pthread_attr_init(&how);
    pthread_attr_setstacksize(&how, STACK);
    for (int i = 0; i < THREADS; i++) {
        if (pthread_create(&threads[i], &how, call_in_thread, it)) abort();
    }
    for (int i = 0; i < THREADS; i++) pthread_join(threads[i], NULL);
    pthread_attr_destroy(&how);
}

static void do_job(const char *line) {
    char words[3][1024] = {"", "-", "-"};
    if (sscanf(line, "%1023s %1023s %1023s", words[0], words[1], words[2]) < 2) fail("too few words", line);
    char *end;
    job it = {.line = line, .command = words[0], .number = (uint32_t)strtoul(words[2], &end, 10)};
    int is_number = end != words[2] && !*end;
    it.session = text_of(words[1], &it.session_len), it.other = text_of(is_number ? "-" : words[2], &it.other_len);
    it.text = guarded(0);
    it.wanted = call(&it, it.text, 0);
    if (it.wanted.text_len) {
        release(it.text, 0);
        it.text = guarded(it.wanted.text_len);
        if (!same(call(&it, it.text, it.wanted.text_len), it.wanted)) fail("another answer with room for the text", line);
    }
    call_with_rooms(&it);
    long refusals = call_with_refusals(&it, 0);
    if (call_with_refusals(&it, 1) != refusals) fail("another number of allocations", line);
    call_in_threads(&it);
    printf("%u %u %u %zu\n", it.wanted.kind, it.wanted.line, it.wanted.reason, it.wanted.text_len);
    fwrite(it.text, 1, it.wanted.text_len, stdout);
    fflush(stdout);
    release(it.text, it.wanted.text_len);
    release(it.other, it.other_len);
    release(it.session, it.session_len);
}

int main(void) {
    if (postcopy_version() != POSTCOPY_VERSION) fail("the library is of another version than the header", "version");
    postcopy_refusal none = postcopy_why((const uint8_t *)"", 0, POSTCOPY_YES, (uint8_t[1]){0}, 1);
    if (none.kind || none.line || none.column || none.text_len) fail("something is said of no kind of text", "why");
    char line[4096];
    while (fgets(line, sizeof line, stdin)) {
        line[strcspn(line, "\n")] = 0;
        do_job(line);
    }
    return 0;
}
