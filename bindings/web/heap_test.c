/* Makes random calls of the heap over a memory of its own, and looks after each few at all that has to hold:
   blocks stand beside one another up to the end, none that is free beside another, each of these in its bin and no other
   there; each block that was handed out keeps its bytes, and is aligned.

       heap_test ROUNDS SEED

   The memory grows up to a limit, so that growing is refused too. */
#include <stdint.h>
#include <stdio.h>
#include <stdlib.h>
#include <string.h>

#define HEAP_TEST
#define malloc heap_malloc
#define free heap_free
#define end heap_end

enum { MOST_PAGES = 96, FIRST_PAGES = 2, PAGE_BYTES = 65536, SLOTS = 256 };

static _Alignas(65536) unsigned char memory[MOST_PAGES * PAGE_BYTES];
static size_t pages = FIRST_PAGES;
static long refused, grown;

static size_t first_byte(void) { return (size_t)memory + 8; }
static size_t memory_end(void) { return (size_t)memory + pages * PAGE_BYTES; }
static int has_grown(size_t more) {
    if (pages + more > MOST_PAGES) return refused++, 0;
    return pages += more, grown++, 1;
}

#include "heap.c"

static uint64_t state;

static uint64_t next(void) {
    state ^= state << 13, state ^= state >> 7, state ^= state << 17;
    return state;
}

static void fail(const char *why) {
    fprintf(stderr, "heap_test: %s\n", why);
    exit(1);
}

static struct {
    unsigned char *at, byte;
    size_t length;
} slots[SLOTS];

/* Whether all that the heap keeps about its blocks is so. */
static void look_at_blocks(void) {
    static size_t in_bins[BINS];
    memset(in_bins, 0, sizeof in_bins);
    size_t before = 0, used = 0;
    int was_free = 0;
    Block *b = (Block *)((first_byte() + 15) & ~(size_t)15);
    for (; b != top; b = after(b)) {
        if ((char *)b > (char *)top) fail("a block reaches over the last one");
        if (size_of(b) < LEAST || size_of(b) % 16) fail("a block has no right size");
        if (b->before != before) fail("a block does not know the size of the one before it");
        if (!is_used(b) && was_free) fail("two free blocks stand side by side");
        if (is_used(b)) used++;
        else in_bins[bin_of(b->size)]++;
        before = size_of(b);
        was_free = !is_used(b);
    }
    if (top->before != before || was_free) fail("the last block is wrong");
    if ((size_t)top + top->size != memory_end()) fail("the last block does not end where the memory does");
    for (unsigned at = 0; at < BINS; at++) {
        size_t count = 0;
        for (Block *it = bins[at]; it; it = it->next, count++) {
            if (is_used(it) || bin_of(it->size) != at) fail("a block stands in a wrong bin");
            if (it->next && it->next->last != it) fail("a bin is no list");
        }
        if (count != in_bins[at]) fail("a bin has other blocks than are free");
        if (!count != !(filled[at / 64] >> at % 64 & 1)) fail("a bin is not told to be filled, or empty");
    }
    size_t held = 0;
    for (int i = 0; i < SLOTS; i++) held += slots[i].at != 0;
    if (held != used) fail("another number of blocks is in use than was handed out");
}

static void look_at_slot(int i, size_t length) {
    if ((size_t)slots[i].at % 16) fail("a block is not aligned");
    /* (all are as the first where each is as the next) */
    unsigned char *at = slots[i].at;
    if (length && (at[0] != slots[i].byte || memcmp(at, at + 1, length - 1))) fail("the bytes of a block changed");
}

static void fill(int i, size_t length) {
    slots[i].length = length;
    slots[i].byte = (unsigned char)next();
    memset(slots[i].at, slots[i].byte, length);
}

/* Mostly short lengths, now and then a long one. */
static size_t some_length(void) {
    uint64_t kind = next() % 16;
    return next() % (kind < 8 ? 64 : kind < 13 ? 1024 : kind < 15 ? 40000 : 1500000);
}

static void let_go(int i) {
    look_at_slot(i, slots[i].length);
    rattle_dealloc(slots[i].at);
    slots[i].at = 0;
}

static void change(int i) {
    size_t length = some_length(), kept = next() % (slots[i].length + 1);
    Tried got = rattle_realloc(slots[i].at, kept, length, 8);
    if (!got.ok) {
        look_at_slot(i, slots[i].length);
        return;
    }
    slots[i].at = got.p;
    look_at_slot(i, kept < length ? kept : length);
    fill(i, length);
}

static void ask(int i) {
    size_t length = some_length();
    Tried got = rattle_alloc(length, 16);
    if (!got.ok) return;
    slots[i].at = got.p;
    fill(i, length);
}

int main(int count, char **words) {
    long rounds = count > 1 ? atol(words[1]) : 100000;
    state = count > 2 ? strtoull(words[2], 0, 10) : 1;
    if (rattle_alloc((size_t)1 << 62, 16).ok || rattle_alloc((size_t)1 << 40, 16).ok) fail("too much was handed out");
    rattle_dealloc(0);
    for (long round = 0; round < rounds; round++) {
        int i = (int)(next() % SLOTS);
        if (!slots[i].at) ask(i);
        else if (next() % 2) let_go(i);
        else change(i);
        if (round % 16 == 0) look_at_blocks();
    }
    for (int i = 0; i < SLOTS; i++) {
        if (slots[i].at) let_go(i);
    }
    look_at_blocks();
    if (top->before) fail("not all of the memory is one block at the end");
    printf("%ld rounds, the memory grew %ld times, and was refused %ld times\n", rounds, grown, refused);
    return refused && grown ? 0 : 1;
}
