/* Opens pipes until there are no two descriptors left, and then single descriptors until there is none, and says how many it got. */
#include "lego.h"
#include "text.h"

static void say(int count, const char *what, long result)
{
    put_number(1, (unsigned long)count);
    put_text(1, what);
    put_text(1, ", then error ");
    put_number(1, (unsigned long)error_of(result));
    put_text(1, "\n");
}

int main(void)
{
    int ends[2], count = 0;
    long result;
    while ((result = pipe2(ends, 0)) == 0)
        count++;
    say(count, " pipes", result);
    count = 0;
    while ((result = dup(0)) >= 0)
        count++;
    say(count, " more", result);
    close(ends[0]);
    result = dup(0);
    put_number(1, (unsigned long)result);
    put_text(1, result == ends[0] ? " is free again\n" : " is another\n");
    return 0;
}
