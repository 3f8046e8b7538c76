/* Sends standard input through another program: a child takes the end of a pipe as its standard input and becomes `upper`, a
   file of the description. Exits with the child's code, or with 1 where a call fails. */
#include "lego.h"

enum { PIECE = 4096 };

static char piece[PIECE];

/* The ends of the pipe are closed by execve; their copy as standard input isn't. */
static _Noreturn void become_upper(int from, char **environment)
{
    char *arguments[] = { "upper", 0 };
    dup3(from, 0, 0);
    execve("upper", arguments, environment);
    exit(127);
}

/* Copies standard input to a descriptor; whether that went well. */
static int copy_input(int to)
{
    for (;;) {
        long length = read(0, piece, sizeof piece);
        if (length <= 0)
            return length == 0;
        if (write(to, piece, (unsigned long)length) != length)
            return 0;
    }
}

int main(int count, char **arguments, char **environment)
{
    int ends[2], status;
    (void)count;
    (void)arguments;
    if (pipe2(ends, O_CLOEXEC) != 0)
        return 1;
    long child = fork();
    if (child < 0)
        return 1;
    if (child == 0)
        become_upper(ends[0], environment);
    close(ends[0]);
    int went_well = copy_input(ends[1]);
    close(ends[1]);
    if (wait4((int)child, &status, 0, 0) != child || !went_well || signal_of(status) != 0)
        return 1;
    return code_of(status);
}
