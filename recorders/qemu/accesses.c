/*
 * Records every access of an unmodified guest to its memory: a plugin of QEMU that is linked with preload.c, so that one library is
 * both preloaded and loaded by -plugin, and accesses, faults and placements are numbered by one process.
 *
 * RECORD_ACCESSES is the file of records, of 16 bytes each, as `struct record` has them. RECORD_GATES is a file of the guest's 256
 * interrupt gates, a line for each: its address in hexadecimal digits, and how many cells the processor pushes there. RECORD_COUNTS is
 * the file of what was counted. At the source RECORD_START is a file that is made when recording is to begin, and RECORD_INIT the file
 * that memory is then copied to, while no processor runs. Where these are not named recording begins at once.
 *
 * A cell is 8 bytes. Its value is read back in the callback of an access, behind the access: so it is right only where no other
 * processor runs in between, which is TCG with `thread=single`. `shadow` has the value of each cell by its last record. A read of
 * this value, and a write of it, say nothing new and are not recorded, but for the first one at the target.
 *
 * Four things are shown to no plugin:
 *
 * - What a processor pushes at an interrupt: a block at a gate records the cells at the stack pointer. At a halt a processor may stand
 *   at a gate whose block has not begun.
 * - Marks that the processor sets in page tables: a change that raises bits 5 and 6 alone, in a cell with bit 0, is one.
 * - Reads of code: the bytes that are translated are read.
 * - Looks into page tables that wait for a page: where a thread goes on that waited for a page, and nobody placed the page, it read it.
 *
 * A look stands in front of the access: it is what was placed at the start of the block. Where the page was placed within the block,
 * that the access waited for it is the kernel's word, and counted as such.
 */
#define _GNU_SOURCE
#include <errno.h>
#include <fcntl.h>
#include <stdatomic.h>
#include <stdio.h>
#include <stdlib.h>
#include <string.h>
#include <sys/mman.h>
#include <sys/syscall.h>
#include <unistd.h>
#include "accesses.h"
#include "plugin.h"
#include "preload.h"

#ifndef __x86_64__
#error "where QEMU's code keeps the processor's state is known for x86-64 alone"
#endif

#define BUFFERED 65536
#define PROCESSORS 64
#define GATES 256
#define RSP 4  /* registers by their places in the processor's state */
#define RIP 16
#define NOBODY 63 /* whose a record is that is no processor's */

int qemu_plugin_version = INTERFACE;

enum known { UNKNOWN, PLACED_ONLY, TOLD }; /* how the value of a cell is known: by its page's placement, or by a record */

static pthread_mutex_t records_lock = PTHREAD_MUTEX_INITIALIZER;
static struct record buffer[BUFFERED];
static unsigned buffered;
static int records_file = -1;

static uint64_t *memory; /* the window in this process */
static uint64_t *shadow;
static uint8_t *known;                        /* by cell */
static uint8_t is_settled[MOST_PAGES];        /* that no access to the page needs a look any more */
static _Atomic uint32_t placements, placed_as[MOST_PAGES];
static uint32_t seen;                         /* the highest number of a placement that a look has told */
static bool is_target, is_recording;
static const char *start_path, *gates_path, *counts_path;
static qemu_plugin_id_t plugin;

static struct {
    int thread;
    uint32_t placements; /* at the start of its block */
    const uint64_t *state;
    _Atomic uint32_t waits_for; /* a page, + 1 */
} processors[PROCESSORS];
static unsigned current; /* the processor that runs, or ran last */

static struct {
    uint64_t records, accesses, implied, unseen, frames, frames_at_halt, frames_untold, parts_untold, unlocated, marks, gates, misses,
        misses_before_first, words, unplaced, went_on;
} counts;

/* Records */

static void flush(void)
{
    const char *at = (const char *)buffer;
    size_t left = buffered * sizeof *buffer;
    while (left) {
        ssize_t done = write(records_file, at, left);
        if (done < 0) {
            perror("accesses: records");
            abort();
        }
        at += done, left -= done;
    }
    buffered = 0;
}

static void append(enum kind kind, unsigned vcpu, uint32_t place, uint64_t value)
{
    pthread_mutex_lock(&records_lock);
    if (buffered == BUFFERED)
        flush();
    buffer[buffered++] = (struct record){value, place, kind, vcpu, 0};
    counts.records++;
    pthread_mutex_unlock(&records_lock);
}

/* A record of a cell, which is its last one from here on. */
static void put(enum kind kind, unsigned vcpu, uint32_t place, uint64_t value)
{
    append(kind, vcpu, place, value);
    shadow[place] = value;
    known[place] = TOLD;
}

static void write_counts(void)
{
    FILE *out = fopen(counts_path, "w");
    if (!out)
        return;
#define TELL(what) fprintf(out, #what " %lu\n", (unsigned long)counts.what)
    TELL(records); TELL(accesses); TELL(implied); TELL(unseen); TELL(frames); TELL(frames_at_halt); TELL(frames_untold);
    TELL(parts_untold); TELL(unlocated); TELL(marks); TELL(gates); TELL(misses); TELL(misses_before_first); TELL(words); TELL(unplaced); TELL(went_on);
    fclose(out);
}

static void flush_all(void)
{
    pthread_mutex_lock(&records_lock);
    flush();
    pthread_mutex_unlock(&records_lock);
    write_counts();
}

/* Looks. A placement is made, numbered and entered under `lock`. */

static void look_locked(unsigned vcpu, uint32_t page)
{
    uint32_t placement = placed_as[page], shown = processors[vcpu].placements;
    if (!placement) {
        counts.unplaced++;
        return;
    }
    if (placement > shown)
        counts.words++, shown = placement;
    if (shown > seen)
        append(SEE, vcpu, page, seen = shown);
    is_settled[page] = 1;
}

/* Tells that a processor may use the page, where it is the target's and that was not told. */
static void settle(unsigned vcpu, uint32_t page)
{
    if (!is_target || is_settled[page])
        return;
    pthread_mutex_lock(&lock);
    look_locked(vcpu, page);
    pthread_mutex_unlock(&lock);
}

/* Accesses */

static bool is_in_window(uint64_t address)
{
    return address >= base && address - base < pages * PAGE;
}

/* A change that nobody told, of those bytes of a cell that the access itself did not write. */
static void tell_unseen(unsigned vcpu, uint32_t place, uint64_t value, uint64_t changed, bool is_store)
{
    uint64_t was = shadow[place], is = (was & ~changed) | (value & changed);
    if (is_marked(was, is)) {
        counts.marks++;
        put(MARK, vcpu, place, is);
    } else if (!is_target) {
        counts.unseen++;
        put(UNSEEN, vcpu, place, is);
    } else if (is_store) { /* of a load the record tells it */
        append(READ, vcpu, place, is);
    }
}

static void access_cell(unsigned vcpu, uint32_t place, uint64_t written, bool is_store)
{
    uint64_t value = __atomic_load_n(memory + place, __ATOMIC_RELAXED);
    settle(vcpu, place / CELLS);
    bool is_told = known[place] == TOLD;
    uint64_t changed = known[place] ? (shadow[place] ^ value) & ~written : 0;
    if (changed)
        tell_unseen(vcpu, place, value, changed, is_store);
    if (is_told && shadow[place] == value)
        counts.implied++;
    else
        put(is_store ? WRITE : READ, vcpu, place, value);
}

/* The physical address, or -1. */
static uint64_t physical(unsigned vcpu, uint64_t address)
{
    uint64_t found;
    if (qemu_plugin_translate_vaddr)
        return qemu_plugin_translate_vaddr(address, &found) ? found : -1UL;
    if (!qemu_get_cpu || !cpu_get_phys_page_attrs_debug)
        return -1UL;
    uint32_t attributes[4] = {0};
    uint64_t page = cpu_get_phys_page_attrs_debug(qemu_get_cpu(vcpu), address & -PAGE, attributes);
    return page == -1UL ? page : (page & -PAGE) + address % PAGE;
}

/* An access within a page of physical memory, cell by cell. */
static void access_part(unsigned vcpu, uint64_t at, uint64_t length, bool is_store)
{
    for (uint64_t end = at + length; at < end; at += length) {
        length = 8 - at % 8 < end - at ? 8 - at % 8 : end - at;
        if (is_in_window(at))
            access_cell(vcpu, (at - base) / 8, is_store ? (length == 8 ? ~0UL : ((1UL << 8 * length) - 1) << 8 * (at % 8)) : 0, is_store);
    }
}

static void accessed(unsigned vcpu, qemu_plugin_meminfo_t info, uint64_t address, void *opaque __attribute__((unused)))
{
    struct qemu_plugin_hwaddr *where = qemu_plugin_get_hwaddr(info, address);
    counts.accesses++;
    if (!where)
        counts.unlocated++;
    if (!where || qemu_plugin_hwaddr_is_io(where))
        return;
    bool is_store = qemu_plugin_mem_is_store(info);
    uint64_t size = 1UL << qemu_plugin_mem_size_shift(info), first = PAGE - address % PAGE < size ? PAGE - address % PAGE : size;
    access_part(vcpu, qemu_plugin_hwaddr_phys_addr(where), first, is_store);
    if (first == size)
        return;
    uint64_t next = physical(vcpu, address + first); /* the part on the next page */
    if (next == -1UL)
        counts.parts_untold++;
    else
        access_part(vcpu, next, size - first, is_store);
}

/* Interrupts' frames */

static uint64_t gates[GATES];
static uint8_t gate_cells[GATES];

static void read_gates(void)
{
    FILE *in = fopen(gates_path, "r");
    unsigned cells;
    if (!in)
        return;
    for (counts.gates = 0; counts.gates < GATES && fscanf(in, "%lx %u", &gates[counts.gates], &cells) == 2; counts.gates++)
        gate_cells[counts.gates] = cells;
    fclose(in);
}

/* How many cells a processor pushes that goes to this address, or 0. */
static unsigned cells_pushed(uint64_t address)
{
    for (unsigned gate = 0; gate < counts.gates; gate++)
        if (gates[gate] == address)
            return gate_cells[gate];
    return 0;
}

static void frame_pushed(unsigned vcpu, uint64_t stack, unsigned cells, bool is_locked)
{
    counts.frames++;
    for (; cells; cells--, stack += 8) {
        uint64_t at = physical(vcpu, stack);
        if (at == -1UL)
            counts.frames_untold++;
        if (at == -1UL || !is_in_window(at))
            continue;
        uint32_t place = (at - base) / 8;
        if (!is_locked)
            settle(vcpu, place / CELLS);
        uint64_t value = memory[place];
        if (!known[place] || shadow[place] != value)
            put(FRAME, vcpu, place, value);
    }
}

/* The frame of a processor that stands still at a gate. 11.1 translates addresses for the processor that runs alone. */
static void frame_at_halt(unsigned vcpu)
{
    const uint64_t *state = processors[vcpu].state;
    unsigned cells = state && !qemu_plugin_translate_vaddr ? cells_pushed(state[RIP]) : 0;
    if (cells) {
        counts.frames_at_halt++;
        frame_pushed(vcpu, state[RSP], cells, true);
    }
}

/* Waits for pages */

/* A thread goes on that waited for a page. Where nobody placed the page, it read it all the same. */
static void went_on(unsigned vcpu, uint32_t page)
{
    if (placed_as[page] || !is_present(memory + page * CELLS))
        return;
    counts.went_on++;
    put(READ, vcpu, page * CELLS, memory[page * CELLS]);
}

/* Threads that waited and had run no block by then, so that no processor is known for theirs. */
static struct { int thread; uint32_t page; } before_first[256];
static unsigned waited_before_first;

static void first_block(unsigned vcpu)
{
    pthread_mutex_lock(&lock);
    processors[vcpu].thread = syscall(SYS_gettid);
    for (unsigned wait = 0; wait < waited_before_first; wait++)
        if (before_first[wait].thread == processors[vcpu].thread) {
            went_on(vcpu, before_first[wait].page);
            before_first[wait].thread = 0;
        }
    pthread_mutex_unlock(&lock);
}

static void waits_no_more(unsigned vcpu)
{
    uint32_t page = processors[vcpu].waits_for - 1;
    processors[vcpu].waits_for = 0;
    went_on(vcpu, page);
}

static void waits_before_first(uint32_t page, int thread)
{
    counts.misses_before_first++;
    for (unsigned wait = 0; wait < waited_before_first; wait++)
        if (before_first[wait].thread == thread && before_first[wait].page != page) {
            went_on(NOBODY, before_first[wait].page);
            before_first[wait].thread = 0;
        }
    if (waited_before_first < sizeof before_first / sizeof *before_first) {
        before_first[waited_before_first].thread = thread;
        before_first[waited_before_first++].page = page;
    }
}

/* The processor of a thread that waits, or -1: all of them share one, and it is that of the processor that runs. */
static int processor_of(int thread)
{
    if (processors[current].thread == thread)
        return current;
    for (unsigned vcpu = 0; vcpu < PROCESSORS; vcpu++)
        if (processors[vcpu].thread == thread)
            return vcpu;
    return -1;
}

/* Called by the thread that reads the fault, while the processor waits: so this is its place among the records. The miss is told in the
 * pipe too, as `uffd miss NUMBER`. */
void heard_fault(uint64_t page, int thread)
{
    int vcpu = processor_of(thread);
    if (vcpu < 0) {
        waits_before_first(page, thread);
        return;
    }
    if (processors[vcpu].waits_for && processors[vcpu].waits_for != page + 1)
        waits_no_more(vcpu);
    processors[vcpu].waits_for = page + 1;
    append(MISS, vcpu, page, ++counts.misses);
    dprintf(pipe_end, "uffd miss %lu\n", counts.misses);
}

void heard_page(uint64_t page, const void *contents)
{
    if (contents)
        memcpy(shadow + page * CELLS, contents, PAGE);
    else
        memset(shadow + page * CELLS, 0, PAGE);
    memset(known + page * CELLS, PLACED_ONLY, CELLS);
    uint32_t number = placements + 1;
    append(PLACED, NOBODY, page, number);
    if (!placed_as[page])
        placed_as[page] = number;
    placements = number; /* the last, so that a look that shows it finds all else */
}

/* Blocks of code */

__attribute__((used)) static void block_body_(unsigned vcpu, void *cells, const uint64_t *state) __asm__("block_body");
static void block_body_(unsigned vcpu, void *cells, const uint64_t *state)
{
    current = vcpu;
    processors[vcpu].state = state;
    processors[vcpu].placements = placements;
    if (!processors[vcpu].thread)
        first_block(vcpu);
    if (processors[vcpu].waits_for) {
        pthread_mutex_lock(&lock);
        if (processors[vcpu].waits_for)
            waits_no_more(vcpu);
        pthread_mutex_unlock(&lock);
    }
    if (cells)
        frame_pushed(vcpu, state[RSP], (unsigned)(uintptr_t)cells, false);
}

/* QEMU's code keeps the processor's state in rbp: its registers first, and the instruction pointer behind them. They are in memory at
 * the start of a block. */
__attribute__((naked, used)) static void block_begins(unsigned vcpu __attribute__((unused)), void *cells __attribute__((unused)))
{
    __asm__("mov %rbp, %rdx\n\tjmp block_body");
}

/* What is translated was read: the bytes that the translator had, within what their cells held otherwise. */
static void read_code(const struct qemu_plugin_insn *instruction)
{
    uint8_t bytes[16];
    size_t size = qemu_plugin_insn_size(instruction);
    const uint8_t *host = qemu_plugin_insn_haddr(instruction), *from = (const uint8_t *)memory;
    if (size > sizeof bytes || !memory || host < from || host + size > from + pages * PAGE)
        return;
#if INTERFACE < 3
    memcpy(bytes, qemu_plugin_insn_data(instruction), size);
#else
    size = qemu_plugin_insn_data(instruction, bytes, size);
#endif
    if ((uintptr_t)host % PAGE + size > PAGE)
        size = PAGE - (uintptr_t)host % PAGE; /* its second part is on another page */
    for (size_t done = 0, length; done < size; done += length) {
        size_t at = host + done - from;
        length = 8 - at % 8 < size - done ? 8 - at % 8 : size - done;
        uint32_t place = at / 8;
        settle(current, place / CELLS);
        uint64_t value = known[place] ? shadow[place] : memory[place];
        memcpy((uint8_t *)&value + at % 8, bytes + done, length);
        if (known[place] != TOLD || shadow[place] != value)
            put(CODE, current, place, value);
    }
}

static void translate(struct qemu_plugin_tb *block)
{
    if (!counts.gates)
        read_gates();
    uintptr_t cells = cells_pushed(qemu_plugin_tb_vaddr(block));
    qemu_plugin_register_vcpu_tb_exec_cb(block, block_begins, CB_NO_REGS, (void *)cells);
    for (size_t place = 0; place < qemu_plugin_tb_n_insns(block); place++) {
        struct qemu_plugin_insn *instruction = qemu_plugin_tb_get_insn(block, place);
        qemu_plugin_register_vcpu_mem_cb(instruction, accessed, CB_NO_REGS, MEM_RW, NULL);
        if (is_target)
            read_code(instruction);
    }
}

/* The start. Until then a block of the source looks whether recording is to begin, and does nothing else. */

static _Atomic int is_start_wanted;
static void register_callbacks(void);

static void start(void)
{
    int out = open(getenv("RECORD_INIT"), O_WRONLY | O_CREAT | O_TRUNC | O_CLOEXEC, 0666);
    memcpy(shadow, memory, pages * PAGE);
    memset(known, TOLD, pages * CELLS);
    for (uint64_t done = 0; done < pages * PAGE;) {
        ssize_t length = write(out, (char *)shadow + done, pages * PAGE - done);
        if (length < 0) {
            perror("accesses: memory");
            abort();
        }
        done += length;
    }
    close(out);
    is_recording = true;
    register_callbacks();
    dprintf(pipe_end, "accesses begin\n");
}

static void OF_PLUGIN(on_reset) { start(); }

static void look_for_start(unsigned vcpu __attribute__((unused)), void *opaque __attribute__((unused)))
{
    int wanted = 1;
    if (is_start_wanted == 1 && memory && atomic_compare_exchange_strong(&is_start_wanted, &wanted, 2))
        qemu_plugin_reset(plugin, REGISTERED(on_reset));
}

static void *wait_for_start(void *opaque)
{
    while (access(start_path, F_OK))
        usleep(20000);
    is_start_wanted = 1;
    return opaque;
}

/* The machine stands still, or goes on: QEMU calls this behind the stop of its processors. */
static void state_changes(void *opaque __attribute__((unused)), bool is_running, int state __attribute__((unused)))
{
    if (!is_recording)
        return;
    pthread_mutex_lock(&lock);
    for (unsigned vcpu = 0; vcpu < PROCESSORS && !is_running; vcpu++)
        frame_at_halt(vcpu);
    append(is_running ? RESUME : HALT, NOBODY, 0, 0);
    pthread_mutex_unlock(&lock);
    flush_all();
}

static void OF_PLUGIN(on_translation, struct qemu_plugin_tb *block)
{
    if (is_recording)
        translate(block);
    else
        qemu_plugin_register_vcpu_tb_exec_cb(block, look_for_start, CB_NO_REGS, NULL);
}

static void OF_PLUGIN(on_processor, unsigned vcpu)
{
    static bool is_registered;
    (void)vcpu;
    if (!is_registered && qemu_add_vm_change_state_handler)
        qemu_add_vm_change_state_handler(state_changes, NULL);
    is_registered = true;
}

static void OF_PLUGIN_ENDED(on_end) { flush_all(); }

static void register_callbacks(void)
{
    qemu_plugin_register_atexit_cb(plugin, ATEXIT(on_end));
    qemu_plugin_register_vcpu_init_cb(plugin, REGISTERED(on_processor));
    qemu_plugin_register_vcpu_tb_trans_cb(plugin, REGISTERED(on_translation));
}

int qemu_plugin_install(qemu_plugin_id_t id, const struct qemu_info *info, int count, char **words);
int qemu_plugin_install(qemu_plugin_id_t id, const struct qemu_info *info, int count, char **words)
{
    (void)info, (void)count, (void)words;
    pthread_t waiting;
    const char *path = getenv("RECORD_ACCESSES");
    start_path = getenv("RECORD_START"), gates_path = getenv("RECORD_GATES"), counts_path = getenv("RECORD_COUNTS");
    records_file = path ? open(path, O_WRONLY | O_CREAT | O_TRUNC | O_CLOEXEC, 0666) : -1;
    shadow = calloc(pages * CELLS, sizeof *shadow);
    known = calloc(pages * CELLS, sizeof *known);
    if (pipe_end < 0 || records_file < 0 || !gates_path || !counts_path || !shadow || !known) {
        fprintf(stderr, "accesses: nothing says where they go, or there is no memory for them\n");
        return -1;
    }
    plugin = id;
    is_target = is_recording = !start_path;
    register_callbacks();
    if (start_path)
        pthread_create(&waiting, NULL, wait_for_start, NULL);
    return 0;
}

/* Preloaded: the guest's memory is known by its length. */

void *mmap(void *at, size_t length, int protection, int flags, int fd, off_t offset)
{
    void *answer = (void *)syscall(SYS_mmap, at, length, protection, flags, fd, offset);
    if (ram && length == ram && protection == (PROT_READ | PROT_WRITE) && answer != MAP_FAILED)
        memory = (uint64_t *)((char *)answer + base);
    return answer;
}

void *mmap64(void *, size_t, int, int, int, off_t) __attribute__((alias("mmap")));
