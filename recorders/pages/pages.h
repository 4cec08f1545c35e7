/* What the two observers of a migration share: where QEMU's memory is, how its pages are numbered, and the hash that stands for a page. */
#ifndef PAGES_H
#define PAGES_H

#include <stdint.h>
#include <sys/types.h>

#pragma GCC visibility push(hidden) /* no name of QEMU's is to be found here */

#define PAGE 4096UL
#define MOST_BLOCKS 256
#define IS_THERE (UINT64_C(3) << 62) /* of an entry of a page map: present, or swapped out */
#define FOLDER_VARIABLE "POSTCOPY_PAGES"     /* the folder of a side's files .. */
#define KEY_VARIABLE "POSTCOPY_PAGES_KEY"    /* .. the key of the hashes, as 32 hexadecimal digits .. */
#define TRACK_VARIABLE "POSTCOPY_PAGES_TRACK" /* .. and 1 to tell at the end which pages nobody wrote to */

/* A record's number is known at both sides without a message: the source's log has `halted`, `state`, and a `send` of each page in turn. */
enum { HALT, RESUME }; /* of the guest's log */
enum { HALTED, STATE, SENDS };

/* A block of memory. `first` is the number of its first page. */
struct block {
    uint64_t start, length, first;
    int is_anonymous;
    char path[64]; /* of its file, or empty */
};
struct blocks {
    unsigned count;
    uint64_t pages;
    struct block at[MOST_BLOCKS];
};

/* Finds the blocks of a QEMU, which marks each by MADV_DONTFORK: the longest first, and of equal ones that at the highest address, which is
   the order in which both sides made them. Returns 0, or an errno: ENOENT where there is none. */
int find_blocks(pid_t process, struct blocks *found);

/* Writes the blocks to the folder's file `blocks`, a line for each. Returns 0 or an errno. */
int write_blocks(const char *folder, const struct blocks *blocks);

/* Takes the key from the environment. Returns 0, or EINVAL. The name of a recording tells whether two sides have one key, and not which. */
#define NAME_LENGTH 38 /* without the final 0 */
int take_key(void);
void name_of_key(char name[NAME_LENGTH + 1]);

/* Returns 0 for a page of zeros, and for others a hash of 61 bits: two different pages have the same with a probability below 2^-59 for
   whoever does not know the key. */
uint64_t hash_of_page(const void *page);

/* Does parts 0 to `parts` - 1 of some work in up to four threads. */
void share(uint64_t parts, void (*work)(uint64_t part, void *data), void *data);

#pragma GCC visibility pop
#endif
