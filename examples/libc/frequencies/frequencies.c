/* Counts the words of its input, and writes the ten that come most often. Words are letters of ASCII, and large and
   small ones are the same. */

#include <ctype.h>
#include <stdio.h>
#include <stdlib.h>
#include <string.h>

enum { CHAINS = 1024, LONGEST = 64, SHOWN = 10 };

struct word {
    struct word *next;
    unsigned count;
    char text[];
};

static struct word *chains[CHAINS];
static size_t words;

static unsigned chain_of(const char *text)
{
    unsigned hash = 5381;
    while (*text)
        hash = 33 * hash + (unsigned char)*text++;
    return hash % CHAINS;
}

/* Counts a word, which is kept in memory of its own where it is new. */
static void count(const char *text)
{
    struct word **chain = &chains[chain_of(text)], *word = *chain;
    while (word && strcmp(word->text, text) != 0)
        word = word->next;
    if (!word) {
        word = malloc(sizeof *word + strlen(text) + 1);
        if (!word) {
            fputs("frequencies: no more memory\n", stderr);
            exit(2);
        }
        strcpy(word->text, text);
        word->count = 0;
        word->next = *chain;
        *chain = word;
        words++;
    }
    word->count++;
}

/* The more frequent word first, and of two that are as frequent that which comes first in the alphabet. */
static int by_count(const void *first, const void *second)
{
    const struct word *a = *(struct word *const *)first, *b = *(struct word *const *)second;
    return a->count != b->count ? (a->count < b->count) - (a->count > b->count) : strcmp(a->text, b->text);
}

int main(void)
{
    char text[LONGEST + 1];
    size_t size = 0;
    for (int byte = 0; byte != EOF;) {
        byte = getchar();
        if (byte != EOF && isalpha(byte)) {
            if (size < LONGEST)
                text[size++] = (char)tolower(byte);
        } else if (size) {
            text[size] = 0;
            count(text);
            size = 0;
        }
    }

    struct word **sorted = malloc((words + 1) * sizeof *sorted);
    if (!sorted)
        return 2;
    size_t found = 0;
    for (int k = 0; k < CHAINS; k++)
        for (struct word *word = chains[k]; word; word = word->next)
            sorted[found++] = word;
    qsort(sorted, found, sizeof *sorted, by_count);
    for (size_t k = 0; k < found && k < SHOWN; k++)
        printf("%5u %-12s|\n", sorted[k]->count, sorted[k]->text);
    return 0;
}
