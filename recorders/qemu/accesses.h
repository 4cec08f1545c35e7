/* The records of the accesses of a guest, as they stand in a file: 16 bytes each. */
#include <stdbool.h>
#include <stdint.h>

#define CELLS 512UL /* of a page, of 8 bytes each */

enum kind {
    READ = 'r',   /* a load of a cell */
    CODE = 'c',   /* what was translated of a cell */
    WRITE = 'w',  /* a store, with all that the cell has behind it */
    FRAME = 'f',  /* what a processor pushed at an interrupt */
    MARK = 'm',   /* marks that a processor raised in an entry of a page table */
    UNSEEN = 'u', /* a change that nobody told, at the source */
    SEE = 's',    /* a look, whose value is the number of a placement */
    MISS = 'q',   /* a wait for a page, whose value is its number */
    PLACED = 'p', /* a page that is in place, whose value is the placement's number */
    HALT = 'h',
    RESUME = 'g',
};

/* `place` is a cell of the window, or a page in SEE, MISS and PLACED. */
struct record {
    uint64_t value;
    uint32_t place;
    uint8_t kind, vcpu;
    uint16_t spare;
};

/* Whether of a cell only marks were raised, as a processor does in an entry of a page table: bits 5 and 6, where bit 0 is set. */
static inline bool is_marked(uint64_t was, uint64_t is)
{
    return (was & 1) && !(was & ~is) && !((was ^ is) & ~0x60UL);
}
