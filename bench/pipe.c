/* Sends pieces of 4096 bytes through a pipe to a child, which reads them. Argument: how many pieces. Exits with 1 where a call
   fails or the child finds another number of bytes. */
#include "lego.h"
#include "rounds.h"

enum { PIECE = 4096 };

static char piece[PIECE];

/* In the child: whether the other end sends just so many bytes. */
static int receive(int from, unsigned long bytes)
{
    unsigned long received = 0;
    long moved;
    while ((moved = read(from, piece, sizeof piece)) > 0)
        received += (unsigned long)moved;
    return moved == 0 && received == bytes;
}

static int send(int to, unsigned long pieces)
{
    for (unsigned long i = 0; i < pieces; i++)
        if (write(to, piece, sizeof piece) != sizeof piece)
            return 0;
    return close(to) == 0;
}

int main(int count, char **arguments)
{
    unsigned long pieces = number_at(count, arguments, 1);
    int ends[2], status = 1;
    if (pipe2(ends, 0) != 0)
        return 1;
    if (fork() == 0) {
        close(ends[1]);
        return receive(ends[0], pieces * PIECE) ? 0 : 1;
    }
    close(ends[0]);
    return send(ends[1], pieces) && wait4(-1, &status, 0, 0) > 0 ? code_of(status) : 1;
}
