/*
 * The blocks of a QEMU's memory, and the hash of a page.
 *
 * The hash is NH of VMAC (Krovetz and Dai) over the 512 words of a page, whose 128 bits a multilinear function modulo 2^61 - 1 makes
 * shorter. Both have a proved bound for pages that were chosen without the key. The words of the key are SipHash-2-4 (Aumasson and
 * Bernstein) of their places, under the key of 128 bits that the sides share.
 */
#define _GNU_SOURCE
#include "pages.h"

#include <errno.h>
#include <fcntl.h>
#include <pthread.h>
#include <signal.h>
#include <stdatomic.h>
#include <stdio.h>
#include <stdlib.h>
#include <string.h>
#include <unistd.h>

#define WORDS (PAGE / 8)
#define PRIME ((UINT64_C(1) << 61) - 1)
#define MOST_THREADS 4
enum { FOR_NAME = 1 << 20 }; /* places beyond those of the key's words */

static uint64_t key[2], words_of_key[WORDS + 3];

/* Blocks. */

static int in_order(const void *one, const void *other)
{
    const struct block *a = one, *b = other;
    if (a->length != b->length)
        return a->length < b->length ? 1 : -1;
    return a->start < b->start ? 1 : -1;
}

/* Adds a mapping, which may be a further part of the block before it: behind each block QEMU leaves a page that is none. */
static int add_mapping(struct blocks *found, const struct block *mapping)
{
    struct block *last = found->count ? &found->at[found->count - 1] : NULL;
    if (last && last->start + last->length == mapping->start && !strcmp(last->path, mapping->path)) {
        last->length += mapping->length;
        return 0;
    }
    if (found->count == MOST_BLOCKS)
        return E2BIG;
    found->at[found->count++] = *mapping;
    return 0;
}

int find_blocks(pid_t process, struct blocks *found)
{
    char path[64], line[4096], access[5];
    struct block mapping = {0};
    uint64_t start, end;
    int error = 0;
    sprintf(path, "/proc/%d/smaps", process);
    FILE *maps = fopen(path, "re");
    if (!maps)
        return errno;
    found->count = 0;
    while (!error && fgets(line, sizeof line, maps))
        if (sscanf(line, "%lx-%lx %4s ", &start, &end, access) == 3) {
            const char *name = strchr(line, '/');
            mapping = (struct block){.start = start, .length = end - start, .is_anonymous = access[3] == 'p' && !name};
            snprintf(mapping.path, sizeof mapping.path, "%.*s", name ? (int)strcspn(name, " \n") : 0, name ? name : "");
        } else if (!strncmp(line, "VmFlags:", 8) && strstr(line, " dc") && !strstr(line, " io")) {
            error = add_mapping(found, &mapping);
        }
    fclose(maps);
    qsort(found->at, found->count, sizeof *found->at, in_order);
    found->pages = 0;
    for (unsigned at = 0; at < found->count; at++) {
        found->at[at].first = found->pages;
        found->pages += found->at[at].length / PAGE;
    }
    return error ? error : found->count ? 0 : ENOENT;
}

int write_blocks(const char *folder, const struct blocks *blocks)
{
    char path[4096];
    if (snprintf(path, sizeof path, "%s/blocks", folder) >= (int)sizeof path)
        return ENAMETOOLONG;
    FILE *file = fopen(path, "we");
    if (!file)
        return errno;
    for (unsigned at = 0; at < blocks->count; at++)
        fprintf(file, "block %lu %lu %s\n", blocks->at[at].first, blocks->at[at].length / PAGE, blocks->at[at].path);
    return fclose(file) ? errno : 0;
}

/* The key. */

static uint64_t turned(uint64_t word, int by)
{
    return word << by | word >> (64 - by);
}

static void mix(uint64_t state[4], int rounds)
{
    while (rounds--) {
        state[0] += state[1], state[2] += state[3];
        state[1] = turned(state[1], 13) ^ state[0], state[3] = turned(state[3], 16) ^ state[2];
        state[0] = turned(state[0], 32) + state[3], state[2] += state[1];
        state[1] = turned(state[1], 17) ^ state[2], state[3] = turned(state[3], 21) ^ state[0];
        state[2] = turned(state[2], 32);
    }
}

/* SipHash-2-4 of a message of eight bytes. */
static uint64_t siphash(uint64_t message)
{
    const uint64_t words[] = {message, UINT64_C(8) << 56};
    uint64_t state[] = {key[0] ^ 0x736f6d6570736575, key[1] ^ 0x646f72616e646f6d, key[0] ^ 0x6c7967656e657261, key[1] ^ 0x7465646279746573};
    for (int at = 0; at < 2; at++) {
        state[3] ^= words[at];
        mix(state, 2);
        state[0] ^= words[at];
    }
    state[2] ^= 0xff;
    mix(state, 4);
    return state[0] ^ state[1] ^ state[2] ^ state[3];
}

int take_key(void)
{
    const char *text = getenv(KEY_VARIABLE);
    if (!text || strlen(text) != 32 || strspn(text, "0123456789abcdef") != 32 || sscanf(text, "%16lx%16lx", &key[0], &key[1]) != 2)
        return EINVAL;
    for (unsigned at = 0; at < WORDS + 3; at++)
        words_of_key[at] = siphash(at);
    return 0;
}

void name_of_key(char name[NAME_LENGTH + 1])
{
    sprintf(name, "pages-%016lx%016lx", siphash(FOR_NAME), siphash(FOR_NAME + 1));
}

/* The hash. */

static uint64_t modulo(unsigned __int128 number)
{
    number = (number & PRIME) + (number >> 61); /* of 68 bits at most */
    uint64_t rest = (uint64_t)(number & PRIME) + (uint64_t)(number >> 61);
    return rest >= PRIME ? rest - PRIME : rest;
}

uint64_t hash_of_page(const void *page)
{
    const uint64_t *words = page;
    unsigned __int128 sum = 0;
    uint64_t any = 0, hash = 0;
    for (unsigned at = 0; at < WORDS; at += 2) {
        any |= words[at] | words[at + 1];
        sum += (unsigned __int128)(words[at] + words_of_key[at]) * (words[at + 1] + words_of_key[at + 1]);
    }
    if (!any)
        return 0;
    for (unsigned at = 0; at < 3; at++, sum >>= 43)
        hash = modulo(hash + (unsigned __int128)((uint64_t)sum & ((UINT64_C(1) << 43) - 1)) * modulo(words_of_key[WORDS + at]));
    return hash ? hash : 1;
}

/* Work for several threads. */

struct work {
    _Atomic uint64_t next;
    uint64_t parts;
    void (*work)(uint64_t part, void *data);
    void *data;
};

static void *take_parts(void *of)
{
    struct work *work = of;
    for (uint64_t part; (part = atomic_fetch_add(&work->next, 1)) < work->parts;)
        work->work(part, work->data);
    return NULL;
}

void share(uint64_t parts, void (*work)(uint64_t part, void *data), void *data)
{
    struct work all = {.parts = parts, .work = work, .data = data};
    pthread_t others[MOST_THREADS];
    long count = 0, most = sysconf(_SC_NPROCESSORS_ONLN) - 1;
    sigset_t every, before;
    sigfillset(&every);
    pthread_sigmask(SIG_SETMASK, &every, &before); /* signals go to the program's own threads */
    while (count < most && count < MOST_THREADS - 1 && count < (long)parts && !pthread_create(&others[count], NULL, take_parts, &all))
        count++;
    pthread_sigmask(SIG_SETMASK, &before, NULL);
    take_parts(&all);
    while (count)
        pthread_join(others[--count], NULL);
}
