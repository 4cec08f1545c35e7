/*
 * A process of the guest that checks itself: adds one to random cells of its memory, and looks again and again whether the sum of all
 * cells is what it added.
 *
 *     work PAGES PAUSE     so many pages; behind each 64 additions it sleeps so many microseconds
 */
#include <stdint.h>
#include <stdio.h>
#include <stdlib.h>
#include <sys/mman.h>
#include <unistd.h>

#define ADDED 20000 /* in a round */
#define TOLD 5      /* wrong sums, at most */

int main(int count, char **words)
{
    if (count != 3)
        return 2;
    uint64_t cells = strtoull(words[1], NULL, 10) * 512, random = 88172645463325252ULL, added = 0, wrong = 0;
    unsigned pause = strtoul(words[2], NULL, 10);
    uint64_t *memory = mmap(NULL, cells * 8, PROT_READ | PROT_WRITE, MAP_PRIVATE | MAP_ANONYMOUS, -1, 0);
    if (!cells || memory == MAP_FAILED)
        return 2;
    for (uint64_t cell = 0; cell < cells; cell++)
        memory[cell] = 1;
    for (uint64_t round = 1;; round++) {
        for (int addition = 1; addition <= ADDED; addition++, added++) {
            random ^= random << 13, random ^= random >> 7, random ^= random << 17;
            memory[random % cells]++;
            if (pause && addition % 64 == 0)
                usleep(pause);
        }
        uint64_t sum = 0;
        for (uint64_t cell = 0; cell < cells; cell++)
            sum += memory[cell] - 1;
        if (sum != added && ++wrong <= TOLD)
            printf("guest: WRONG: %lu were added in %s pages, and %ld of them are not there\n", added, words[1], (long)(added - sum));
        if (round % 200 == 1)
            printf("guest: %s pages, round %lu\n", words[1], round);
        fflush(stdout);
    }
}
