/* Copies standard input to standard output, PIECE bytes at a time. Exits with 1 where a call fails. */
#include "lego.h"

enum { PIECE = 512 };

static char piece[PIECE];

int main(void)
{
    for (;;) {
        long length = read(0, piece, sizeof piece);
        if (length <= 0)
            return length == 0 ? 0 : 1;
        if (write(1, piece, (unsigned long)length) != length)
            return 1;
    }
}
