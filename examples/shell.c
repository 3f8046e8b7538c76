/* Runs the programs that the lines of standard input name, one after the other, and says how each ended. A line is a name of a
   file and its arguments, with blanks between them. */
#include "lego.h"
#include "text.h"

enum {
    LONGEST = 256,  /* bytes of a line, a closing 0 counted */
    MOST_WORDS = 16
};

static char line[LONGEST];
static char *words[MOST_WORDS + 1];

/* Whether there is one more line. It is read byte by byte, so that what follows is left to the programs. */
static int read_line(void)
{
    int length = 0;
    char letter = 0;
    long moved;
    while ((moved = read(0, &letter, 1)) == 1 && letter != '\n')
        if (length < LONGEST - 1)
            line[length++] = letter;
    line[length] = 0;
    return length > 0 || moved == 1;
}

/* Gives how many words the line has. */
static int split_line(void)
{
    int count = 0;
    for (char *at = line; *at != 0; at++) {
        if (*at == ' ')
            *at = 0;
        else if (count < MOST_WORDS && (at == line || at[-1] == 0))
            words[count++] = at;
    }
    words[count] = 0;
    return count;
}

static void say(const char *what, int number)
{
    put_text(1, words[0]);
    put_text(1, what);
    put_number(1, (unsigned long)number);
    put_text(1, "\n");
}

/* In the child. */
static _Noreturn void become_program(char **environment)
{
    say(": error ", error_of(execve(words[0], words, environment)));
    exit(127);
}

static void run_program(char **environment)
{
    int status;
    long child = fork();
    if (child == 0)
        become_program(environment);
    if (child < 0)
        say(": no process, error ", error_of(child));
    else if (wait4((int)child, &status, 0, 0) == child && signal_of(status) != 0)
        say(": signal ", signal_of(status));
    else
        say(": exit ", code_of(status));
}

int main(int count, char **arguments, char **environment)
{
    (void)count;
    (void)arguments;
    while (read_line())
        if (split_line() > 0)
            run_program(environment);
    return 0;
}
