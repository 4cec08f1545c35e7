/*
 * What is used of QEMU's interface for plugins, declared by hand: Debian's packages have no qemu-plugin.h. INTERFACE is its version:
 *
 *     QEMU   INTERFACE
 *     7.2        1
 *     10.0       4       an instruction's bytes are copied (since 3)
 *     11.1       7       callbacks take what was registered with them, and no number of the plugin (since 6)
 */
#include <stdbool.h>
#include <stddef.h>
#include <stdint.h>

typedef uint64_t qemu_plugin_id_t;
typedef uint32_t qemu_plugin_meminfo_t;
struct qemu_info;
struct qemu_plugin_tb;
struct qemu_plugin_insn;
struct qemu_plugin_hwaddr;
enum { CB_NO_REGS };
enum { MEM_RW = 3 };

typedef void (*on_block)(unsigned vcpu, void *opaque);
typedef void (*on_access)(unsigned vcpu, qemu_plugin_meminfo_t, uint64_t address, void *opaque);

#if INTERFACE < 6
#define OF_PLUGIN(name, ...) name(qemu_plugin_id_t id __attribute__((unused)), ##__VA_ARGS__)
#define OF_PLUGIN_ENDED(name) name(qemu_plugin_id_t id __attribute__((unused)), void *opaque __attribute__((unused)))
#define REGISTERED(callback) callback
void qemu_plugin_reset(qemu_plugin_id_t, void (*)(qemu_plugin_id_t));
void qemu_plugin_register_atexit_cb(qemu_plugin_id_t, void (*)(qemu_plugin_id_t, void *), void *);
void qemu_plugin_register_vcpu_init_cb(qemu_plugin_id_t, void (*)(qemu_plugin_id_t, unsigned));
void qemu_plugin_register_vcpu_tb_trans_cb(qemu_plugin_id_t, void (*)(qemu_plugin_id_t, struct qemu_plugin_tb *));
#define ATEXIT(callback) callback, NULL
#else
#define OF_PLUGIN(name, ...) name(__VA_ARGS__ __VA_OPT__(,) void *opaque __attribute__((unused)))
#define OF_PLUGIN_ENDED(name) name(void *opaque __attribute__((unused)))
#define REGISTERED(callback) callback, NULL
void qemu_plugin_reset(qemu_plugin_id_t, void (*)(void *), void *);
void qemu_plugin_register_atexit_cb(qemu_plugin_id_t, void (*)(void *), void *);
void qemu_plugin_register_vcpu_init_cb(qemu_plugin_id_t, void (*)(unsigned, void *), void *);
void qemu_plugin_register_vcpu_tb_trans_cb(qemu_plugin_id_t, void (*)(struct qemu_plugin_tb *, void *), void *);
#define ATEXIT(callback) callback, NULL
#endif

#if INTERFACE < 3
const void *qemu_plugin_insn_data(const struct qemu_plugin_insn *);
#else
size_t qemu_plugin_insn_data(const struct qemu_plugin_insn *, void *, size_t);
#endif

void qemu_plugin_register_vcpu_tb_exec_cb(struct qemu_plugin_tb *, on_block, int registers, void *opaque);
void qemu_plugin_register_vcpu_mem_cb(struct qemu_plugin_insn *, on_access, int registers, int which, void *opaque);
size_t qemu_plugin_tb_n_insns(const struct qemu_plugin_tb *);
uint64_t qemu_plugin_tb_vaddr(const struct qemu_plugin_tb *);
struct qemu_plugin_insn *qemu_plugin_tb_get_insn(const struct qemu_plugin_tb *, size_t);
void *qemu_plugin_insn_haddr(const struct qemu_plugin_insn *);
size_t qemu_plugin_insn_size(const struct qemu_plugin_insn *);
unsigned qemu_plugin_mem_size_shift(qemu_plugin_meminfo_t);
bool qemu_plugin_mem_is_store(qemu_plugin_meminfo_t);
struct qemu_plugin_hwaddr *qemu_plugin_get_hwaddr(qemu_plugin_meminfo_t, uint64_t);
bool qemu_plugin_hwaddr_is_io(const struct qemu_plugin_hwaddr *);
uint64_t qemu_plugin_hwaddr_phys_addr(const struct qemu_plugin_hwaddr *);

/* Of 11.1, and not of those before. */
extern bool qemu_plugin_translate_vaddr(uint64_t, uint64_t *) __attribute__((weak));

/* No part of the interface: functions of QEMU that Debian's binaries export. */
extern void *qemu_get_cpu(int) __attribute__((weak));
extern uint64_t cpu_get_phys_page_attrs_debug(void *, uint64_t, uint32_t *) __attribute__((weak));
extern void *qemu_add_vm_change_state_handler(void (*)(void *, bool, int), void *) __attribute__((weak));
