/* The product of two numbers of 128 bits, for which WebAssembly has no instruction. The compiler calls it where the proved code
   looks whether a product of 64 bits is too large.

   It is not proved. product_test.c tries it natively, beside the product of the machine. */
typedef unsigned long long Word;
typedef unsigned __int128 Wide;

#ifdef PRODUCT_TEST
#define __multi3 product
#endif

Wide __multi3(Wide a, Wide b);

/* The product of two words, from those of their halves: no sum of these is too large for a word. */
static Wide product_of_words(Word a, Word b) {
    const Word half = 0xffffffff;
    Word low = (a & half) * (b & half);
    Word middle = (a >> 32) * (b & half) + (low >> 32);
    Word other = (a & half) * (b >> 32) + (middle & half);
    Word high = (a >> 32) * (b >> 32) + (middle >> 32) + (other >> 32);
    return (Wide)high << 64 | other << 32 | (low & half);
}

/* (what both high words make of one another has no place in 128 bits) */
Wide __multi3(Wide a, Wide b) {
    Word crossed = (Word)(a >> 64) * (Word)b + (Word)a * (Word)(b >> 64);
    return product_of_words((Word)a, (Word)b) + ((Wide)crossed << 64);
}
