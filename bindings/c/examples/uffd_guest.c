/* The guest of the example uffd.c: threads that read and write at random, and record what they do. */
#ifndef _GNU_SOURCE
#define _GNU_SOURCE
#endif
#include <string.h>
#include <unistd.h>

#include "uffd.h"

struct vcpu vcpus[VCPUS];
postcopy_log *guest;
int is_moved;
unsigned char is_free[PAGES];
atomic_int was_used, was_written;
static pthread_mutex_t page_locks[PAGES] = {[0 ... PAGES - 1] = PTHREAD_MUTEX_INITIALIZER};

uint64_t random_of(struct vcpu *vcpu)
{
    vcpu->seed ^= vcpu->seed << 13;
    vcpu->seed ^= vcpu->seed >> 7;
    return vcpu->seed ^= vcpu->seed << 17;
}

/* (The record is made under the page's lock: so the log has the accesses to a cell in their order.) */
void use(struct vcpu *vcpu, uint32_t page, uint32_t cell, int is_write)
{
    if (is_moved)
        look(vcpu, page);
    pthread_mutex_lock(&page_locks[page]);
    volatile uint64_t *word = cells_of(page) + cell;
    if (is_write) {
        uint64_t value = random_of(vcpu);
        *word = value;
        is_free[page] = 0;
        postcopy_record_write(guest, vcpu->number, page, cell, value);
    } else
        postcopy_record_read(guest, vcpu->number, page, cell, *word);
    pthread_mutex_unlock(&page_locks[page]);
    if (is_moved && page == MARKED)
        atomic_store(is_write ? &was_written : &was_used, 1);
}

static void release(struct vcpu *vcpu, uint32_t page)
{
    pthread_mutex_lock(&page_locks[page]);
    memset(cells_of(page), 0, page_size);
    is_free[page] = 1;
    postcopy_record_release(guest, vcpu->number, page);
    pthread_mutex_unlock(&page_locks[page]);
}

static void *run(void *what)
{
    struct vcpu *vcpu = what;
    atomic_store(&vcpu->tid, gettid());
    if (is_moved && vcpu->number == 0) {
        use(vcpu, MARKED, 3, 0);
        use(vcpu, MARKED, 2, 1);
    }
    for (long n = 0; n < operations; n++) {
        uint64_t choice = random_of(vcpu) >> 20;
        uint32_t page = choice % PAGES, cell = choice / PAGES % CELLS, act = choice / PAGES / CELLS % 16;
        if (page == MARKED)
            use(vcpu, page, act < 6 ? 2 : 3, act < 6);
        else if (act == 15 && !is_moved)
            release(vcpu, page);
        else
            use(vcpu, page, cell, act < 6);
    }
    return NULL;
}

void run_guest(void)
{
    for (int n = 0; n < VCPUS; n++)
        start(&vcpus[n].thread, run, &vcpus[n]);
    for (int n = 0; n < VCPUS; n++)
        pthread_join(vcpus[n].thread, NULL);
}
