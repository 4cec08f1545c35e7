/*
 * In the place of a QEMU: it is linked with the recorder of accesses, and does what lines of its standard input say. Its memory has
 * RECORD_RAM bytes from 0 on, and virtual addresses are physical ones; those behind it are mapped nowhere.
 *
 *     block VCPU ADDRESS STACK          a block of code begins, with this stack pointer; recording begins with the first one
 *     code VCPU ADDRESS BYTES           an instruction is translated, whose bytes (in hexadecimal digits) the translator had
 *     store VCPU ADDRESS SIZE VALUE     an instruction of the block stores
 *     load VCPU ADDRESS SIZE
 *     poke ADDRESS VALUE                8 bytes change, and no plugin is shown that
 *     page PAGE                         a page is in place, as memory has it
 *     fault PAGE                        a thread waits for a page
 *     stop VCPU ADDRESS STACK           the machine stands still, and the processor in front of a block
 *     go                                it goes on
 */
#define INTERFACE 1
#include <stdio.h>
#include <stdlib.h>
#include <string.h>
#include <sys/mman.h>
#include <sys/syscall.h>
#include <unistd.h>
#include "plugin.h"
#include "preload.h"

struct qemu_plugin_insn {
    on_access access;
    uint64_t address;
    uint8_t bytes[16];
    size_t size;
};
struct qemu_plugin_tb {
    on_block exec;
    void *opaque;
    uint64_t address;
    struct qemu_plugin_insn instruction;
};
struct qemu_plugin_hwaddr {
    uint64_t address;
};

int qemu_plugin_install(qemu_plugin_id_t, const struct qemu_info *, int, char **);
static void (*on_translation)(qemu_plugin_id_t, struct qemu_plugin_tb *);
static void (*on_processor)(qemu_plugin_id_t, unsigned);
static void (*at_exit)(qemu_plugin_id_t, void *);
static void (*on_state)(void *, bool, int);
static char *memory;
static struct qemu_plugin_tb block;
static uint64_t state[17];

void qemu_plugin_reset(qemu_plugin_id_t id, void (*then)(qemu_plugin_id_t)) { then(id); }
void qemu_plugin_register_atexit_cb(qemu_plugin_id_t id, void (*callback)(qemu_plugin_id_t, void *), void *opaque) { at_exit = callback, (void)id, (void)opaque; }
void qemu_plugin_register_vcpu_init_cb(qemu_plugin_id_t id, void (*callback)(qemu_plugin_id_t, unsigned)) { on_processor = callback, (void)id; }
void qemu_plugin_register_vcpu_tb_trans_cb(qemu_plugin_id_t id, void (*callback)(qemu_plugin_id_t, struct qemu_plugin_tb *)) { on_translation = callback, (void)id; }
void qemu_plugin_register_vcpu_tb_exec_cb(struct qemu_plugin_tb *one, on_block callback, int registers, void *opaque) { one->exec = callback, one->opaque = opaque, (void)registers; }
void qemu_plugin_register_vcpu_mem_cb(struct qemu_plugin_insn *one, on_access callback, int registers, int which, void *opaque) { one->access = callback, (void)registers, (void)which, (void)opaque; }
size_t qemu_plugin_tb_n_insns(const struct qemu_plugin_tb *one) { return one != NULL; }
uint64_t qemu_plugin_tb_vaddr(const struct qemu_plugin_tb *one) { return one->address; }
struct qemu_plugin_insn *qemu_plugin_tb_get_insn(const struct qemu_plugin_tb *one, size_t place) { (void)place; return (struct qemu_plugin_insn *)&one->instruction; }
const void *qemu_plugin_insn_data(const struct qemu_plugin_insn *one) { return one->bytes; }
void *qemu_plugin_insn_haddr(const struct qemu_plugin_insn *one) { return one->size ? memory + one->address : NULL; }
size_t qemu_plugin_insn_size(const struct qemu_plugin_insn *one) { return one->size; }
unsigned qemu_plugin_mem_size_shift(qemu_plugin_meminfo_t info) { return info & 15; }
bool qemu_plugin_mem_is_store(qemu_plugin_meminfo_t info) { return info & 16; }
bool qemu_plugin_hwaddr_is_io(const struct qemu_plugin_hwaddr *where) { return where->address >= ram; }
uint64_t qemu_plugin_hwaddr_phys_addr(const struct qemu_plugin_hwaddr *where) { return where->address; }
void *qemu_get_cpu(int vcpu) { (void)vcpu; return memory; }
uint64_t cpu_get_phys_page_attrs_debug(void *cpu, uint64_t address, uint32_t *attributes) { (void)cpu, (void)attributes; return address < ram ? address : -1UL; }
void *qemu_add_vm_change_state_handler(void (*callback)(void *, bool, int), void *opaque) { on_state = callback, (void)opaque; return memory; }

struct qemu_plugin_hwaddr *qemu_plugin_get_hwaddr(qemu_plugin_meminfo_t info, uint64_t address)
{
    static struct qemu_plugin_hwaddr found;
    (void)info;
    found.address = address;
    return address >> 40 ? NULL : &found; /* (of such addresses QEMU does not say where they are) */
}

/* QEMU's code calls with the processor's state in rbp. */
__attribute__((naked)) static void call_with_state(unsigned vcpu __attribute__((unused)), void *opaque __attribute__((unused)),
                                                   on_block exec __attribute__((unused)), void *rbp __attribute__((unused)))
{
    __asm__("push %rbp\n\tmov %rcx, %rbp\n\tcall *%rdx\n\tpop %rbp\n\tret");
}

static void begin_block(unsigned vcpu, uint64_t address, uint64_t stack, size_t size)
{
    block.address = address, block.instruction.address = address, block.instruction.size = size;
    on_translation(0, &block);
    state[4] = stack, state[16] = address;
    if (!size)
        call_with_state(vcpu, block.opaque, block.exec, state);
}

static void access_memory(unsigned vcpu, uint64_t address, unsigned size, bool is_store, uint64_t value)
{
    if (is_store)
        memcpy(memory + address, &value, address + size <= ram ? size : ram - address);
    block.instruction.access(vcpu, __builtin_ctz(size) | is_store << 4, address, NULL);
}

static void placed(uint64_t page)
{
    pthread_mutex_lock(&lock);
    heard_page(page, memory + page * PAGE);
    pthread_mutex_unlock(&lock);
}

static void waits(uint64_t page)
{
    pthread_mutex_lock(&lock);
    heard_fault(page, syscall(SYS_gettid));
    pthread_mutex_unlock(&lock);
}

int main(void)
{
    char line[200], word[20], bytes[40];
    memory = mmap(NULL, ram, PROT_READ | PROT_WRITE, MAP_PRIVATE | MAP_ANONYMOUS, -1, 0);
    memset(memory, 0, ram);
    if (qemu_plugin_install(0, NULL, 0, NULL))
        return 2;
    on_processor(0, 0);
    const char *start = getenv("RECORD_START");
    if (start) {
        fclose(fopen(start, "w"));
        while (access(getenv("RECORD_INIT"), F_OK)) {
            begin_block(0, 0, 0, 0);
            usleep(1000);
        }
    }
    while (fgets(line, sizeof line, stdin)) {
        unsigned long vcpu = 0, first = 0, second = 0, third = 0;
        sscanf(line, "%19s %li %li %li %li", word, &vcpu, &first, &second, &third);
        if (!strcmp(word, "block")) {
            begin_block(vcpu, first, second, 0);
        } else if (!strcmp(word, "code")) {
            size_t size = 0;
            sscanf(line, "%*s %*s %*s %39s", bytes);
            for (; sscanf(bytes + 2 * size, "%2hhx", &block.instruction.bytes[size]) == 1; size++)
                ;
            begin_block(vcpu, first, 0, size);
        } else if (!strcmp(word, "store") || !strcmp(word, "load")) {
            access_memory(vcpu, first, second, word[0] == 's', third);
        } else if (!strcmp(word, "poke")) {
            memcpy(memory + vcpu, &first, 8);
        } else if (!strcmp(word, "page")) {
            placed(vcpu);
        } else if (!strcmp(word, "fault")) {
            waits(vcpu);
        } else if (!strcmp(word, "stop")) {
            state[16] = first, state[4] = second;
            on_state(NULL, false, 0);
        } else if (!strcmp(word, "go")) {
            on_state(NULL, true, 0);
        } else {
            return 2;
        }
    }
    at_exit(0, NULL);
    return 0;
}
