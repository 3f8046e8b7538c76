/* Prints in how many ways a number is a sum of positive numbers, by a table whose rows `malloc` gives. A program for a C library:
   its memory comes from brk, and more of it the longer the table gets. See picolibc.c for how it comes to run on the machine. */
#include <stdio.h>
#include <stdlib.h>

enum { GREATEST = 400, STEP = 50 };

typedef unsigned long count;

/* Row n has for each k up to n in how many ways n is a sum of numbers up to k. */
static count *next_row(count *const *rows, int n)
{
    count *row = malloc(((size_t)n + 1) * sizeof *row);
    if (row == NULL)
        return NULL;
    row[0] = n == 0;
    for (int k = 1; k <= n; k++) {
        int rest = n - k;
        row[k] = row[k - 1] + (rest == 0 ? 1 : rows[rest][k < rest ? k : rest]);
    }
    return row;
}

/* Gives how many bytes the rows had. */
static size_t free_rows(count **rows, int height)
{
    size_t bytes = 0;
    for (int n = 0; n < height; n++) {
        bytes += ((size_t)n + 1) * sizeof **rows;
        free(rows[n]);
    }
    free(rows);
    return bytes;
}

int main(void)
{
    count **rows = NULL;
    for (int n = 0; n <= GREATEST; n++) {
        if (n % STEP == 0)
            rows = realloc(rows, ((size_t)n + STEP) * sizeof *rows);
        if (rows == NULL || (rows[n] = next_row(rows, n)) == NULL) {
            fprintf(stderr, "allocate: out of memory\n");
            return 1;
        }
        if (n % STEP == 0)
            printf("%4d %20lu\n", n, rows[n][n]);
    }
    printf("%lu bytes in rows\n", (unsigned long)free_rows(rows, GREATEST + 1));
    return 0;
}
