/* Compares the product of product.c with that of the machine: of each two of some numbers at which a carry begins or ends, and of
   random ones.

       product_test ROUNDS SEED */
#include <stdint.h>
#include <stdio.h>
#include <stdlib.h>

#define PRODUCT_TEST
#include "product.c"

static uint64_t state;

static uint64_t next(void) {
    state ^= state << 13, state ^= state >> 7, state ^= state << 17;
    return state;
}

static void look_at(Wide a, Wide b) {
    if (product(a, b) == a * b) return;
    fprintf(stderr, "product_test: of %016llx %016llx and %016llx %016llx\n", (Word)(a >> 64), (Word)a, (Word)(b >> 64), (Word)b);
    exit(1);
}

/* Some bits in a row at a random place: such numbers make long carries. */
static Wide row_of_bits(void) {
    Wide all = ~(Wide)0 >> next() % 128;
    return all << next() % 128;
}

int main(int count, char **words) {
    long rounds = count > 1 ? atol(words[1]) : 100000;
    state = count > 2 ? strtoull(words[2], 0, 10) : 1;
    for (int i = 0; i < 128; i++) {
        for (int j = 0; j < 128; j++) {
            for (int more = -1; more <= 1; more++) {
                Wide a = ((Wide)1 << i) + (Wide)more, b = ((Wide)1 << j) - (Wide)more;
                look_at(a, b);
                look_at(~a, b);
            }
        }
    }
    for (long round = 0; round < rounds; round++) {
        look_at(next(), next());
        look_at((Wide)next() << 64 | next(), (Wide)next() << 64 | next());
        look_at(row_of_bits(), row_of_bits());
    }
    printf("%ld rounds\n", rounds);
    return 0;
}
