/* Measures what the calls take. For each file of a session it writes a line for each call: its name, the bytes of stack that it
   took beyond what a thread takes that calls nothing, the most bytes that it held at a time of the heap, and the length of the
   session. A certificate that a call takes is that which the library makes of the session. */
#define _GNU_SOURCE
#include <postcopy.h>

#include <malloc.h>
#include <pthread.h>
#include <stdio.h>
#include <stdlib.h>
#include <string.h>
#include <sys/mman.h>

enum { STACK = 1 << 18, PAINT = 0xcc, ROOM = 1 << 24 };

static size_t held, most;

void *__real_malloc(size_t size);
void *__real_realloc(void *at, size_t size);
void __real_free(void *at);

static void *counted(void *at) {
    held += at ? malloc_usable_size(at) : 0;
    most = held > most ? held : most;
    return at;
}

void *__wrap_malloc(size_t size) { return counted(__real_malloc(size)); }

void *__wrap_realloc(void *at, size_t size) {
    held -= at ? malloc_usable_size(at) : 0;
    return counted(__real_realloc(at, size));
}

void __wrap_free(void *at) {
    held -= at ? malloc_usable_size(at) : 0;
    __real_free(at);
}

static uint8_t *session, *certificate, *room;
static size_t session_len, certificate_len;

static void nothing(void) {}
static void check(void) { postcopy_check(session, session_len, certificate, certificate_len); }
static void replay(void) { postcopy_replay(session, session_len, certificate, certificate_len); }
static void certify(void) { postcopy_certify(session, session_len, room, ROOM); }
static void audit(void) { postcopy_audit(session, session_len, room, ROOM); }
static void audit_all(void) { postcopy_audit_all(session, session_len, room, ROOM); }
static void missing(void) { postcopy_missing(session, session_len, room, ROOM); }
static void explain(void) { postcopy_explain(session, session_len, room, ROOM); }
static void explain_page(void) { postcopy_explain_page(session, session_len, 1, room, ROOM); }
static void explain_line(void) { postcopy_explain_line(session, session_len, 9, room, ROOM); }
static void draw(void) { postcopy_draw(session, session_len, room, ROOM); }
static void draw_page(void) { postcopy_draw_page(session, session_len, 1, room, ROOM); }
static void why(void) { postcopy_why(session, session_len, POSTCOPY_SESSION_TEXT, room, ROOM); }

static const struct { const char *name; void (*call)(void); } calls[] = {
    {"check", check}, {"replay", replay}, {"certify", certify}, {"audit", audit}, {"audit_all", audit_all}, {"missing", missing},
    {"explain", explain}, {"explain_page", explain_page}, {"explain_line", explain_line}, {"draw", draw}, {"draw_page", draw_page},
    {"why", why}};

static void *called(void *call) {
    (*(void (**)(void))call)();
    return NULL;
}

/* The bytes of a stack that a thread touches that makes a call. */
static size_t stack_of(void (*call)(void)) {
    static uint8_t *stack;
    if (!stack) stack = mmap(NULL, STACK, PROT_READ | PROT_WRITE, MAP_PRIVATE | MAP_ANONYMOUS, -1, 0);
    memset(stack, PAINT, STACK);
    pthread_t thread;
    pthread_attr_t how;
    pthread_attr_init(&how);
    if (pthread_attr_setstack(&how, stack, STACK) || pthread_create(&thread, &how, called, &call)) abort();
    pthread_join(thread, NULL);
    pthread_attr_destroy(&how);
    size_t untouched = 0;
    while (untouched < STACK && stack[untouched] == PAINT) untouched++;
    return STACK - untouched;
}

static void read_session(const char *name) {
    FILE *file = fopen(name, "rb");
    if (!file || fseek(file, 0, SEEK_END)) abort();
    session_len = (size_t)ftell(file);
    rewind(file);
    session = malloc(session_len + 1);
    if (fread(session, 1, session_len, file) != session_len) abort();
    fclose(file);
    certificate_len = postcopy_certify(session, session_len, room, ROOM).text_len;
    certificate = malloc(certificate_len + 1);
    memcpy(certificate, room, certificate_len);
}

int main(int count, char **names) {
    room = malloc(ROOM);
    size_t own = stack_of(nothing);
    for (int i = 1; i < count; i++) {
        read_session(names[i]);
        for (size_t n = 0; n < sizeof calls / sizeof *calls; n++) {
            size_t stack = stack_of(calls[n].call), before = held;
            most = held;
            calls[n].call();
            printf("%s %zu %zu %zu\n", calls[n].name, stack > own ? stack - own : 0, most - before, session_len);
        }
        free(session);
        free(certificate);
    }
    return 0;
}
