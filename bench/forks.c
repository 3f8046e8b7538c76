/* Forks again and again, and waits each time for the child, which exits at once. Arguments: how many pages of its own the process
   has touched before, and the rounds. Exits with 1 where a call fails. */
#include "lego.h"
#include "rounds.h"

enum { PAGE = 4096 };

static int fork_and_wait(void)
{
    long child = fork();
    if (child == 0)
        exit(0);
    return child > 0 && wait4((int)child, 0, 0, 0) == child;
}

int main(int count, char **arguments)
{
    unsigned long pages = number_at(count, arguments, 1), rounds = number_at(count, arguments, 2);
    char *memory = mmap(0, pages * PAGE, PROT_READ | PROT_WRITE, MAP_PRIVATE | MAP_ANONYMOUS, -1, 0);
    for (unsigned long page = 0; page < pages; page++)
        memory[page * PAGE] = 1;
    while (rounds-- != 0)
        if (!fork_and_wait())
            return 1;
    return 0;
}
