/* Prints its arguments and its environment, a line each. Exits with the number of arguments. */
#include "lego.h"

static unsigned long length_of(const char *text)
{
    unsigned long length = 0;
    while (text[length] != 0)
        length++;
    return length;
}

/* Writes what stands before a text, the text, and a newline. */
static void write_line(const char *before, const char *text)
{
    write(1, before, length_of(before));
    write(1, text, length_of(text));
    write(1, "\n", 1);
}

int main(int count, char **arguments, char **environment)
{
    for (int i = 0; i < count; i++)
        write_line("argument ", arguments[i]);
    for (int i = 0; environment[i] != 0; i++)
        write_line("environment ", environment[i]);
    return count;
}
