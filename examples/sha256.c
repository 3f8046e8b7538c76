/* Prints the SHA-256 (FIPS 180-4) of TEXT in hexadecimal. */
#include "lego.h"
#include "sha256_block.h"

static const char TEXT[] = "A splitkernel takes the processor, the memory and the storage of a machine apart: each becomes a component of its own, and they meet only through messages.";

/* Byte `at` of the padded text: the text, the byte 0x80, zeros, and the text's length in bits as the last 8
   bytes, greatest first. */
static byte padded(unsigned long at, unsigned long length, unsigned long total)
{
    if (at < length)
        return (byte)TEXT[at];
    if (at == length)
        return 0x80;
    if (at < total - 8)
        return 0;
    return (byte)(8 * length >> 8 * (total - 1 - at));
}

int main(void)
{
    unsigned long length = sizeof TEXT - 1;
    unsigned long total = (length + 8) / BLOCK * BLOCK + BLOCK;
    byte block[BLOCK];
    for (unsigned long at = 0; at < total; at++) {
        block[at % BLOCK] = padded(at, length, total);
        if (at % BLOCK == BLOCK - 1)
            add_block(block);
    }
    char line[65];
    for (int i = 0; i < 64; i++)
        line[i] = "0123456789abcdef"[hash[i / 8] >> (28 - 4 * (i % 8)) & 15];
    line[64] = '\n';
    return write(1, line, sizeof line) == (long)sizeof line ? 0 : 1;
}
