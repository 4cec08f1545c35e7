/*
 * The test guest: walks over a window of memory, and tells each access to a port. Nothing else runs on the machine.
 *
 * The window is `pages` pages of 4 KiB from BASE on, and of each page the first `words` words of 64 bits are used. What the
 * guest tells goes out byte by byte. All bytes have bit 7 set, so that they can share a pipe with lines of ASCII:
 *
 *     0xc0 V                    the next event is of virtual processor V
 *     0xc1 P P P                looks whether page P was placed
 *     0xc2 P P P C C X*11       read X in word C of page P
 *     0xc3 P P P C C X*11 0xc4  wrote X there
 *
 * with numbers in bytes of 6 bits (0x80 | bits), the lowest first. The moment of an event is its last byte.
 *
 * With `flush` a page's translation is dropped before each access, so that the emulator takes its slow path, which marks the
 * page as dirty. The stack's and the lock's are always dropped: what is lost of them would be the guest's own state.
 *
 * With `hot`, once a key is pressed, the processor that sees it writes that many pages alone, the first of the window's last quarter, and
 * the others stand still.
 *
 * With `suspends`, once a key is pressed, the machine is suspended (S3 of a PC's ACPI). It is woken by a reset: the processor begins anew, with
 * the next number, and goes on over the window as it is.
 */
#include <stdint.h>

#define BASE 0x400000u
#define KEYBOARD 0x64 /* whose bit 0 says that a key was pressed */
#define PCI 0xcf8
#define POWER_MANAGEMENT 0x80000b00u /* on the bus of PCI: device 1, function 3 */
#define POWER 0x600 /* where its ports are put */

/* What `migrate` writes over the first bytes of the ROM. */
struct settings {
    uint32_t pages;  /* a power of 2, at most 65536 */
    uint32_t words;  /* a power of 2, at most 512 */
    uint32_t writes; /* of 16 accesses */
    uint32_t pace;   /* how long it waits behind each access */
    uint32_t flush;
    uint32_t cpus;
    uint32_t hot;
    uint32_t suspends;
};
__attribute__((section(".settings"))) const volatile struct settings settings = {256, 16, 4, 0, 0, 1, 0, 0};

void read_word(volatile uint32_t *word, uint32_t page, uint32_t cell);
void write_word(volatile uint32_t *word, uint32_t page, uint32_t cell, uint32_t low, uint32_t high);
__attribute__((noreturn)) void write_hot_pages(volatile uint32_t *word, uint32_t page, uint32_t end, uint32_t cpu, uint32_t flush);
extern const uint8_t trampoline[5];

static volatile uint32_t *const lock = (volatile uint32_t *)0x104;

static inline void tell(uint8_t byte)
{
    asm volatile("outb %0, $0xe9" : : "a"(byte));
}

static inline void drop_translation(volatile void *at)
{
    asm volatile("invlpg (%0)" : : "r"(at) : "memory");
}

static inline int is_key_pressed(void)
{
    uint8_t status;
    asm volatile("inb %1, %0" : "=a"(status) : "i"(KEYBOARD));
    return status & 1;
}

static void out(uint16_t port, uint32_t value)
{
    asm volatile("outl %0, %1" : : "a"(value), "d"(port));
}

static void suspend(void)
{
    out(PCI, POWER_MANAGEMENT | 0x40);
    out(PCI + 4, POWER | 1);
    out(PCI, POWER_MANAGEMENT | 0x80);
    out(PCI + 4, 1);
    asm volatile("outw %w0, %w1" : : "a"(1 << 13 | 1 << 10), "d"(POWER + 4));
}

static inline volatile uint32_t *word_at(uint32_t page, uint32_t cell)
{
    return (volatile uint32_t *)(BASE + page * 4096u + cell * 8u);
}

static void visit(uint32_t page, uint32_t cell, int is_write, uint64_t value)
{
    if (settings.flush)
        drop_translation(word_at(page, cell));
    drop_translation(&value);
    drop_translation(lock);
    if (is_write)
        write_word(word_at(page, cell), page, cell, value, value >> 32);
    else
        read_word(word_at(page, cell), page, cell);
}

static void acquire(void)
{
    uint32_t old;
    do {
        while (*lock) /* without a write */
            asm volatile("pause");
        old = 1;
        asm volatile("xchgl %0, %1" : "+r"(old), "+m"(*lock) : : "memory");
    } while (old);
}

static void release(void)
{
    *lock = 0;
}

static void wait(uint32_t rounds)
{
    for (volatile uint32_t i = 0; i < rounds; i++)
        ;
}

static void start_others(void)
{
    volatile uint32_t *apic = (volatile uint32_t *)0xfee00000u;
    for (unsigned i = 0; i < sizeof trampoline; i++)
        ((volatile uint8_t *)0x8000)[i] = trampoline[i];
    apic[0xf0 / 4] = 0x1ff;
    apic[0x300 / 4] = 0xc4500; /* INIT to all but this one */
    wait(100000);
    apic[0x300 / 4] = 0xc4608; /* begin at 0x8000 */
}

/* Three pages of four get a first value each, in ascending order; the others stay zeros. */
static void fill(void)
{
    for (uint32_t page = 0; page < settings.pages; page++)
        if (page & 3)
            visit(page, page & (settings.words - 1), 1, 0x0101010101010101u * (page & 255) + page);
}

void walk(uint32_t cpu)
{
    uint64_t x = 0x9e3779b97f4a7c15u * (cpu + 1);
    if (cpu == 0) {
        acquire();
        fill();
        release();
        if (settings.cpus > 1)
            start_others();
    }
    for (;;) {
        x ^= x << 13;
        x ^= x >> 7;
        x ^= x << 17;
        acquire();
        if (settings.hot && is_key_pressed()) {
            uint32_t first = settings.pages / 4 * 3;
            write_hot_pages(word_at(first, 0), first, first + settings.hot, cpu, settings.flush);
        }
        if (settings.suspends && is_key_pressed()) {
            release();
            suspend();
            acquire();
        }
        if (settings.cpus > 1) {
            tell(0xc0);
            tell(0x80 | cpu);
        }
        visit((uint32_t)(x >> 20) & (settings.pages - 1), (uint32_t)(x >> 40) & (settings.words - 1),
              (uint32_t)(x >> 60) < settings.writes, (x >> 56 & 7) == 0 ? 0 : x);
        release();
        wait(settings.pace);
    }
}
