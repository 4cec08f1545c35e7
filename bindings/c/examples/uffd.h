/* What the parts of the example uffd.c share: the machine, the guest, and which mistake is made. */
#ifndef UFFD_H
#define UFFD_H

#include <pthread.h>
#include <stdatomic.h>
#include <stddef.h>
#include <stdint.h>

#include <postcopy_record.h>

#define PAGES 32
#define CELLS 8 /* of a page's 4,096 bytes the guest uses the first 64 */
#define VCPUS 2
#define MARKED 5 /* the page of the mistakes: the guest reads its cell 3, which stays 0, and writes its cells 1 and 2 */

extern enum mistake { NONE, WAKE_FIRST, OLD_PAGE, PLACE_TWICE } mistake;
extern long operations; /* of each thread of the guest, before the move and after it */
extern size_t page_size;
extern char *memory;

static inline uint64_t *cells_of(uint32_t page)
{
    return (uint64_t *)(memory + page * page_size);
}

void fail(const char *what);
void start(pthread_t *thread, void *(*of)(void *), void *what);

/* The guest, on either side. */

struct vcpu {
    uint32_t number;
    uint64_t seed;
    pthread_t thread;
    uint32_t seen;         /* the newest placement that it recorded a look at */
    atomic_int tid;        /* its thread .. */
    _Atomic uint32_t miss; /* .. and its last miss */
};

extern struct vcpu vcpus[VCPUS];
extern postcopy_log *guest;
extern int is_moved;
extern unsigned char is_free[PAGES];
extern atomic_int was_used, was_written; /* the marked page, after the move */

uint64_t random_of(struct vcpu *vcpu);

/* One access, with its record. */
void use(struct vcpu *vcpu, uint32_t page, uint32_t cell, int is_write);

/* Runs the guest's threads until they are through. */
void run_guest(void);

/* At the target: looks whether a page was placed, before it is used, and waits where it was not. */
void look(struct vcpu *vcpu, uint32_t page);

#endif
