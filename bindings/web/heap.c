/* The heap of the module: malloc and free, and the three calls that the proved code makes, over the module's own memory, which
   grows. First fit among bins of sizes, where neighbours that are free are joined.

   Nothing of it is proved. heap_test.c, which includes this file over a memory of its own, tries it natively. */
typedef __SIZE_TYPE__ size_t;

/* What the proved code is answered: whether there was memory, and where. It takes both as words. */
typedef struct {
    size_t ok;
    void *p;
} Tried;

enum { HEAD = 16, LEAST = 32, PAGE = 65536, USED = 1, BINS = 64 * 4 };

#ifndef HEAP_TEST
extern unsigned char __heap_base;

/* Where the heap begins, where the memory ends at first, and whether it could be grown by so many pages. */
static size_t first_byte(void) { return (size_t)&__heap_base; }
static size_t memory_end(void) { return __builtin_wasm_memory_size(0) * PAGE; }
static int has_grown(size_t pages) { return __builtin_wasm_memory_grow(0, pages) != (size_t)-1; }
#endif

/* A block, with what stands before its bytes: the size of the block before it, or 0, and its own size, multiples of 16 that
   count these 16 bytes; the lowest bit of its own size says that it is in use. One that is free has its neighbours in its bin
   besides. */
typedef struct Block {
    size_t before, size;
    struct Block *next, *last;
} Block;

static Block *bins[BINS];
static size_t filled[BINS / 64]; /* a bit for each bin that has blocks */
static Block *top;               /* the block at the end of the memory, which is free and in no bin */
static size_t end;

static size_t size_of(const Block *b) { return b->size & ~(size_t)USED; }
static int is_used(const Block *b) { return b->size & USED; }
static Block *after(Block *b) { return (Block *)((char *)b + size_of(b)); }
static Block *ahead(Block *b) { return (Block *)((char *)b - b->before); }
static Block *block_of(void *p) { return (Block *)((char *)p - HEAD); }

/* The size of a block with room for so many bytes. */
static size_t size_for(size_t n) {
    size_t size = (n + HEAD + 15) & ~(size_t)15;
    return size < LEAST ? LEAST : size;
}

static unsigned bin_of(size_t size) {
    unsigned log = 63 - (unsigned)__builtin_clzl(size);
    return log * 4 + (unsigned)((size >> (log - 2)) & 3);
}

static void put_into_bin(Block *b) {
    unsigned at = bin_of(b->size);
    b->last = 0;
    b->next = bins[at];
    if (b->next) b->next->last = b;
    bins[at] = b;
    filled[at / 64] |= (size_t)1 << at % 64;
}

static void take_from_bin(Block *b) {
    unsigned at = bin_of(b->size);
    if (b->next) b->next->last = b->last;
    if (b->last) b->last->next = b->next;
    else bins[at] = b->next;
    if (!bins[at]) filled[at / 64] &= ~((size_t)1 << at % 64);
}

/* Makes all from here to the end of the memory the last block. */
static void set_top(Block *b, size_t before) {
    top = b;
    top->before = before;
    top->size = end - (size_t)top;
}

/* Cuts a used block down to a size, and frees the rest, joined with what is free after it. */
static void cut(Block *b, size_t size) {
    size_t rest = size_of(b) - size;
    Block *next = after(b);
    if (next == top) {
        set_top((Block *)((char *)b + size), size);
    } else {
        if (!is_used(next)) take_from_bin(next), rest += next->size;
        else if (rest < LEAST) return;
        Block *left = (Block *)((char *)b + size);
        left->before = size;
        left->size = rest;
        after(left)->before = rest;
        put_into_bin(left);
    }
    b->size = size | USED;
}

/* Sees to it that a block of this size can be cut from the last one. The memory grows by an eighth at least, where it may: an
   engine may copy all of it whenever it grows. */
static int make_room(size_t size) {
    if (!top) {
        end = memory_end();
        set_top((Block *)((first_byte() + 15) & ~(size_t)15), 0);
    }
    if (top->size >= size + LEAST) return 1;
    size_t least = (size + LEAST - top->size + PAGE - 1) / PAGE, pages = end / PAGE / 8;
    if (pages < least || !has_grown(pages)) {
        pages = least;
        if (!has_grown(pages)) return 0;
    }
    end += pages * PAGE;
    set_top(top, top->before);
    return 1;
}

/* Takes a block of this size from the front of the last one. */
static Block *take_from_top(size_t size) {
    if (!make_room(size)) return 0;
    Block *b = top;
    set_top((Block *)((char *)b + size), size);
    b->size = size | USED;
    return b;
}

/* A free block of at least this size, in its bin. */
static Block *find(size_t size) {
    unsigned at = bin_of(size);
    for (Block *b = bins[at]; b; b = b->next) {
        if (b->size >= size) return b;
    }
    at++;
    for (unsigned word = at / 64; word < BINS / 64; word++, at = 0) {
        size_t left = filled[word] & ~(size_t)0 << at % 64;
        if (left) return bins[word * 64 + (unsigned)__builtin_ctzl(left)];
    }
    return 0;
}

void *malloc(size_t n) {
    if (n >> 62) return 0;
    size_t size = size_for(n);
    Block *b = find(size);
    if (b) {
        take_from_bin(b);
        b->size |= USED;
        cut(b, size);
    } else if (!(b = take_from_top(size))) {
        return 0;
    }
    return (char *)b + HEAD;
}

void free(void *p) {
    if (!p) return;
    Block *b = block_of(p);
    b->size = size_of(b);
    if (b->before && !is_used(ahead(b))) {
        Block *joined = ahead(b);
        take_from_bin(joined);
        joined->size += b->size;
        b = joined;
    }
    Block *next = after(b);
    if (next == top) {
        set_top(b, b->before);
        return;
    }
    if (!is_used(next)) take_from_bin(next), b->size += next->size;
    after(b)->before = b->size;
    put_into_bin(b);
}

/* Makes a used block at least this size where it stands, and tells whether it could. */
static int enlarge(Block *b, size_t size) {
    Block *next = after(b);
    size_t more = size - size_of(b);
    if (next == top) {
        if (!make_room(more)) return 0;
        set_top((Block *)((char *)b + size), size);
        b->size = size | USED;
        return 1;
    }
    if (is_used(next) || next->size < more) return 0;
    take_from_bin(next);
    b->size += next->size;
    after(b)->before = size_of(b);
    return 1;
}

/* A block of n bytes with the bytes that were kept of another, which is freed; 0, and the other one stays, where there is no
   memory. */
static void *resize(void *p, size_t kept, size_t n) {
    if (n >> 62) return 0;
    Block *b = block_of(p);
    size_t size = size_for(n);
    if (size > size_of(b) && !enlarge(b, size)) {
        void *moved = malloc(n);
        if (!moved) return 0;
        __builtin_memcpy(moved, p, kept < n ? kept : n);
        free(p);
        return moved;
    }
    if (size < size_of(b)) cut(b, size);
    return p;
}

static char none[16] __attribute__((aligned(16)));

static Tried tried(void *p) { return (Tried){p != 0, p ? p : none}; }

/* Each block is aligned to 16, and no type of the proved code wants more. */
Tried rattle_alloc(size_t n, size_t align) { return tried(malloc(n ? n : align)); }

Tried rattle_realloc(void *p, size_t kept, size_t n, size_t align) { return tried(resize(p, kept, n ? n : align)); }

void rattle_dealloc(void *p) { free(p); }
