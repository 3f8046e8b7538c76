/* Hashes one block of zeros after the other: the rounds of its argument, or without end where there is none. */
#include "lego.h"
#include "sha256_block.h"
#include "rounds.h"

static byte block[BLOCK];

int main(int count, char **arguments)
{
    unsigned long rounds = rounds_in(count, arguments);
    do
        add_block(block);
    while (--rounds != 0);
    return 0;
}
