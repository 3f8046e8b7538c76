/* Appends pieces of 4096 bytes to a new file. Argument: how many pieces. Exits with 1 where a call fails. */
#include "lego.h"
#include "rounds.h"

enum { PIECE = 4096 };

static char piece[PIECE];

int main(int count, char **arguments)
{
    unsigned long pieces = number_at(count, arguments, 1);
    int file = (int)openat(AT_FDCWD, "grown", O_WRONLY | O_CREAT | O_TRUNC | O_APPEND, 0644);
    while (pieces-- != 0)
        if (write(file, piece, sizeof piece) != sizeof piece)
            return 1;
    return 0;
}
