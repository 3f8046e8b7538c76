/* Makes one call after the other: getpid, or read or write of so many bytes of the file `data`, which has 16 MiB and is gone
   through again and again. Arguments: the call's name, the number of bytes (0 for getpid), and the rounds, without end where
   they aren't there. Exits with 1 where a call moves fewer bytes. */
#include "lego.h"
#include "rounds.h"

enum { LONGEST = 4096, SIZE = 1 << 24 };

static char bytes[LONGEST];

/* Whether a round did what it should: `name` is the first letter of the call's. */
static int make_call(char name, int data, unsigned long length)
{
    if (name == 'g')
        return getpid() > 0;
    return (name == 'r' ? read(data, bytes, length) : write(data, bytes, length)) == (long)length;
}

int main(int count, char **arguments)
{
    unsigned long length = number_at(count, arguments, 2), rounds = number_at(count, arguments, 3), place = 0;
    char name = count < 2 ? 'g' : arguments[1][0];
    int data = name == 'g' ? -1 : (int)openat(AT_FDCWD, "data", O_RDWR, 0);
    do {
        if (!make_call(name, data, length))
            return 1;
        place += length;
        if (place == SIZE)
            place = (unsigned long)lseek(data, 0, SEEK_SET);
    } while (--rounds != 0);
    return 0;
}
