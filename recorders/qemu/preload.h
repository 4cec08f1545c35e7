/* What the preloaded library has for a recorder of accesses that is linked with it, and what it asks of one. */
#include <pthread.h>
#include <stdint.h>

#define PAGE 4096UL
#define MOST_PAGES 65536

#pragma GCC visibility push(hidden) /* no name of QEMU's is to be found here */

extern pthread_mutex_t lock; /* a placement is made and told under it */
extern int pipe_end;         /* -1 where nothing is recorded */
extern uint64_t ram, base, pages;

uint64_t number(const char *name); /* what a variable of the environment says, or 0 */
int is_present(const void *address); /* whether a page can be read without a wait */

/*
 * Called under `lock`, where they are there. A page is in place, with its contents or, where they are NULL, with zeros: in the
 * order of the lines `have`, `place` and `zero`. A thread waits for a page.
 */
extern void heard_page(uint64_t page, const void *contents) __attribute__((weak));
extern void heard_fault(uint64_t page, int thread) __attribute__((weak));

#pragma GCC visibility pop
