/*
 * The guest's log of a session, as lines, from the accesses that both sides recorded; and whether what was recorded is what memory
 * held. It is run in the folder of a recording:
 *
 *     guest_log PAGES READY
 *
 * PAGES are those of the window, and READY is the number of the pager's `ready`. It reads source.accesses, target.accesses, init.mem,
 * halt.mem, end.mem, target.pages and `placements`, which has a `struct placement` for each number from 1 on. It writes guest.lines, and
 * to its standard output, in lines, what each record's number is that other logs name, and the self-test:
 *
 *     halt NUMBER
 *     miss MISS NUMBER
 *     lines COUNT
 *     halt-marks COUNT    cells that differ at the halt by marks of a page table alone, told as writes of processor 63
 *     halt-differs COUNT  cells that differ otherwise
 *     end-marks COUNT, end-differs COUNT   the same at the end, of the pages that are in place and of those that nobody placed
 *     end-reads COUNT     cells of pages that nobody placed, which do not hold at the end what they should
 *     unseen COUNT        changes at the source that nobody told
 *     behind COUNT        records behind the halt, in front of the resume, or behind the end
 *     cell WHEN PAGE CELL RECORDED FOUND   one of the cells that differ, some of each
 *
 * At the end all memory is read once, by processor 61. Where a page is in place what is read there is what was recorded, so nothing is
 * told of it. A page that nobody placed is compared with what a machine that never moved would have.
 */
#include <fcntl.h>
#include <stdio.h>
#include <stdlib.h>
#include <string.h>
#include <sys/mman.h>
#include <sys/stat.h>
#include <unistd.h>
#include "accesses.h"

#define PAGE 4096UL
#define NONE 0xffffffffu
#define MARKER 63 /* whose writes the marks of page tables are */
#define READER 61 /* who reads all memory at the end */
#define TOLD 4    /* cells that differ are told, at most */

/* A placement: the pager's record, or NONE; the page; and the place of its contents, or NONE for zeros. */
struct placement {
    uint32_t record, page, contents;
};

static FILE *out;
static uint64_t cells, lines, halt_marks, halt_differs, end_marks, end_differs, end_reads, unseen, behind;

static void fail(const char *what)
{
    perror(what);
    exit(2);
}

/* A file in memory, of which changes go nowhere; and its length. One that is not there is NULL. */
static void *file_of(const char *path, uint64_t *length)
{
    int file = open(path, O_RDONLY | O_CLOEXEC);
    struct stat found;
    if (file < 0 || fstat(file, &found))
        return *length = 0, NULL;
    *length = found.st_size;
    void *at = *length ? mmap(NULL, *length, PROT_READ | PROT_WRITE, MAP_PRIVATE, file, 0) : (void *)"";
    if (at == MAP_FAILED)
        fail(path);
    close(file);
    return at;
}

static uint64_t *memory_of(const char *path)
{
    uint64_t length, *at = file_of(path, &length);
    if (at && length != cells * 8) {
        fprintf(stderr, "%s: %lu bytes, and not %lu\n", path, length, cells * 8);
        exit(2);
    }
    return at;
}

static char *digits(char *at, uint64_t value)
{
    char text[20];
    int length = 0;
    do
        text[length++] = '0' + value % 10;
    while (value /= 10);
    while (length)
        *at++ = text[--length];
    return at;
}

/* A line of a word and numbers. */
static void line(const char *word, int count, const uint64_t *numbers)
{
    char text[128], *at = stpcpy(text, word);
    for (int place = 0; place < count; place++) {
        *at++ = ' ';
        at = digits(at, numbers[place]);
    }
    *at++ = '\n';
    if (fwrite(text, 1, at - text, out) != (size_t)(at - text))
        fail("guest.lines");
    lines++;
}

static void tell_access(const char *word, unsigned vcpu, uint64_t place, uint64_t value)
{
    line(word, 4, (uint64_t[]){vcpu, place / CELLS, place % CELLS, value});
}

static bool is_write(const struct record *record)
{
    return record->kind == WRITE || record->kind == FRAME || record->kind == MARK;
}

static void tell_write(const struct record *record)
{
    tell_access("w", record->kind == MARK ? MARKER : record->vcpu, record->place, record->value);
}

static void check(const struct record *record, const char *file, uint64_t number)
{
    bool is_of_page = record->kind == SEE || record->kind == MISS || record->kind == PLACED;
    if (!strchr("rcwfmusqphg", record->kind) || record->vcpu >= 64 || record->place >= (is_of_page ? cells / CELLS : cells)) {
        fprintf(stderr, "%s: record %lu is none\n", file, number);
        exit(2);
    }
}

/* A cell whose recorded value is not what memory holds. */
static void differs(const char *when, uint64_t place, uint64_t recorded, uint64_t found, uint64_t *marks, uint64_t *others)
{
    if (is_marked(recorded, found)) {
        ++*marks;
        tell_access("w", MARKER, place, found);
    } else if (++*others <= TOLD) {
        printf("cell %s %lu %lu %#lx %#lx\n", when, place / CELLS, place % CELLS, recorded, found);
    }
}

/* The source, as far as the halt. `machine` is its memory: as it began, and as it was recorded at the halt. */
static void source(uint64_t *machine, const uint64_t *halt)
{
    uint64_t count, number = 0;
    const struct record *records = file_of("source.accesses", &count);
    count /= sizeof *records;
    for (; number < count && records[number].kind != HALT; number++) {
        const struct record *record = records + number;
        check(record, "source.accesses", number);
        unseen += record->kind == UNSEEN;
        if (is_write(record)) {
            machine[record->place] = record->value;
            tell_write(record);
        }
    }
    if (number == count) {
        fprintf(stderr, "source.accesses: the guest was never halted\n");
        exit(2);
    }
    for (number++; number < count; number++)
        behind += records[number].kind != HALT;
    for (uint64_t place = 0; place < cells; place++)
        if (machine[place] != halt[place])
            differs("halt", place, machine[place], halt[place], &halt_marks, &halt_differs);
    memcpy(machine, halt, cells * 8);
    printf("halt %lu\n", lines);
    line("halt", 0, NULL);
}

/* What the target's memory holds by what was recorded, and which pages the pager put in place. */
static uint64_t *there;
static uint8_t *is_placed;

static void put_in_place(const struct placement *placement, const uint8_t *contents, uint64_t length)
{
    uint64_t *page = there + placement->page * CELLS;
    if (placement->record != NONE) /* or the page was there, and should have been forgotten */
        is_placed[placement->page] = 1;
    if (placement->contents == NONE)
        memset(page, 0, PAGE);
    else if ((placement->contents + 1) * PAGE <= length)
        memcpy(page, contents + placement->contents * PAGE, PAGE);
    else
        fail("target.pages is too short");
}

/* The target, from the resume to the end. `machine` becomes the memory of a machine that never moved, by what the guest wrote. */
static void target(uint64_t *machine, uint64_t ready)
{
    uint64_t count, placed, length;
    const struct record *records = file_of("target.accesses", &count);
    const struct placement *placements = file_of("placements", &placed);
    const uint8_t *contents = file_of("target.pages", &length);
    bool is_resumed = false, is_ended = false, is_seen = false;
    uint32_t seen = 0;
    count /= sizeof *records, placed /= sizeof *placements;
    for (uint64_t number = 0; number < count; number++) {
        const struct record *record = records + number;
        check(record, "target.accesses", number);
        if (record->kind == PLACED) {
            if (!record->value || record->value > placed || placements[record->value - 1].page != record->place)
                fail("target.accesses has a placement that target.raw does not have");
            put_in_place(placements + record->value - 1, contents, length);
        } else if (record->kind == RESUME) {
            if (!is_resumed)
                line("resume", 1, &ready);
            is_resumed = true;
        } else if (record->kind == HALT) {
            is_ended = is_resumed;
        } else if (!is_resumed || is_ended) {
            behind++;
        } else if (record->kind == SEE) {
            uint64_t shown = record->value < placed ? record->value : placed;
            while (shown && placements[shown - 1].record == NONE)
                shown--;
            if (shown && (!is_seen || placements[shown - 1].record > seen)) {
                is_seen = true, seen = placements[shown - 1].record;
                line("see", 1, (uint64_t[]){seen});
            }
        } else if (record->kind == MISS) {
            printf("miss %lu %lu\n", record->value, lines);
            line("miss", 2, (uint64_t[]){record->vcpu, record->place});
        } else if (is_write(record)) {
            machine[record->place] = there[record->place] = record->value;
            tell_write(record);
        } else {
            tell_access("r", record->vcpu, record->place, record->value);
        }
    }
}

static void at_end(const uint64_t *machine, const uint64_t *end)
{
    for (uint64_t place = 0; place < cells; place++) {
        if (there[place] != end[place])
            differs("end", place, there[place], end[place], &end_marks, &end_differs);
        if (!is_placed[place / CELLS] && machine[place] != end[place]) {
            end_reads++;
            tell_access("r", READER, place, end[place]);
        }
    }
}

int main(int count, char **words)
{
    if (count != 3) {
        fprintf(stderr, "guest_log PAGES READY\n");
        return 2;
    }
    cells = strtoull(words[1], NULL, 10) * CELLS;
    out = fopen("guest.lines", "w");
    uint64_t *machine = memory_of("init.mem"), *halt = memory_of("halt.mem"), *end = memory_of("end.mem");
    there = calloc(cells, sizeof *there);
    is_placed = calloc(cells / CELLS, 1);
    if (!out || !machine || !halt || !there || !is_placed)
        fail("the recording");
    setvbuf(out, NULL, _IOFBF, 1 << 20);
    source(machine, halt);
    target(machine, strtoull(words[2], NULL, 10));
    if (end)
        at_end(machine, end);
    if (fclose(out))
        fail("guest.lines");
    printf("lines %lu\nhalt-marks %lu\nhalt-differs %lu\nend-marks %lu\nend-differs %lu\nend-reads %lu\nunseen %lu\nbehind %lu\n",
           lines, halt_marks, halt_differs, end_marks, end_differs, end_reads, unseen, behind);
    return end ? 0 : 1;
}
