/* Writes standard input with capital letters. Exits with 1 where a call fails. */
#include "lego.h"

enum { PIECE = 512 };

static char piece[PIECE];

static void raise_letters(long length)
{
    for (long i = 0; i < length; i++)
        if (piece[i] >= 'a' && piece[i] <= 'z')
            piece[i] = (char)(piece[i] - 'a' + 'A');
}

int main(void)
{
    for (;;) {
        long length = read(0, piece, sizeof piece);
        if (length <= 0)
            return length == 0 ? 0 : 1;
        raise_letters(length);
        if (write(1, piece, (unsigned long)length) != length)
            return 1;
    }
}
