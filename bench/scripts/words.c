#include <stdio.h>
#include <stdlib.h>
#include <string.h>

struct entry { char *word; long count; struct entry *next; };

static struct entry *table[1024];

static unsigned hash(const char *word)
{
    unsigned value = 5381;
    while (*word)
        value = value * 33 + (unsigned char)*word++;
    return value % 1024;
}

static struct entry *entry_of(const char *word)
{
    struct entry *found;
    for (found = table[hash(word)]; found; found = found->next)
        if (!strcmp(found->word, word))
            return found;
    found = malloc(sizeof *found);
    found->word = strdup(word);
    found->count = 0;
    found->next = table[hash(word)];
    return table[hash(word)] = found;
}

int main(void)
{
    char word[256];
    while (scanf("%255s", word) == 1)
        entry_of(word)->count++;
    for (int place = 0; place < 1024; place++)
        for (struct entry *it = table[place]; it; it = it->next)
            printf("%ld %s\n", it->count, it->word);
    return 0;
}
