/* Prints the words of standard input that are there most often, with their numbers. A program for a C library: it uses
   getchar, malloc, realloc, qsort and printf. See picolibc.c for how it comes to run on the machine. */
#include <ctype.h>
#include <stdio.h>
#include <stdlib.h>
#include <string.h>

enum { LONGEST = 40, MOST_PRINTED = 5 };

struct entry {
    char word[LONGEST + 1];
    int count;
};

/* Reads a word in lower case; its length is 0 at the end of the input. */
static int read_word(char *word)
{
    int length = 0, letter;
    while ((letter = getchar()) != EOF) {
        if (isalpha(letter)) {
            if (length < LONGEST)
                word[length++] = (char)tolower(letter);
        } else if (length > 0) {
            break;
        }
    }
    word[length] = 0;
    return length;
}

static int by_count(const void *first, const void *second)
{
    const struct entry *a = first, *b = second;
    return a->count != b->count ? b->count - a->count : strcmp(a->word, b->word);
}

int main(void)
{
    struct entry *entries = NULL;
    int used = 0, room = 0, total = 0;
    char word[LONGEST + 1];
    while (read_word(word) > 0) {
        int place = 0;
        total++;
        while (place < used && strcmp(entries[place].word, word) != 0)
            place++;
        if (place == room) {
            room = room == 0 ? 8 : 2 * room;
            entries = realloc(entries, (size_t)room * sizeof *entries);
            if (entries == NULL) {
                fprintf(stderr, "words: out of memory\n");
                return 1;
            }
        }
        if (place == used) {
            strcpy(entries[used].word, word);
            entries[used++].count = 0;
        }
        entries[place].count++;
    }
    if (used > 0)
        qsort(entries, (size_t)used, sizeof *entries, by_count);
    printf("%d words, %d of them different\n", total, used);
    for (int place = 0; place < used && place < MOST_PRINTED; place++)
        printf("%6d %s\n", entries[place].count, entries[place].word);
    free(entries);
    return 0;
}
