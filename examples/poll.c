/* Looks now and then whether a child has ended, and counts how often it hasn't. The child gives its turn away ROUNDS times. Where
   the description's `turns` were all 0, the child would never have a turn, and the run would go on until `max_turns`. */
#include "lego.h"
#include "text.h"

enum {
    ROUNDS = 20,
    CODE = 7
};

static _Noreturn void work(void)
{
    for (int i = 0; i < ROUNDS; i++)
        sched_yield();
    exit(CODE);
}

int main(void)
{
    int status, polls = 0;
    long child = fork(), ended;
    if (child < 0)
        return 1;
    if (child == 0)
        work();
    while ((ended = wait4((int)child, &status, WNOHANG, 0)) == 0)
        polls++;
    if (ended != child)
        return 1;
    put_text(1, "code ");
    put_number(1, (unsigned long)code_of(status));
    put_text(1, " after ");
    put_number(1, (unsigned long)polls);
    put_text(1, " polls\n");
    return 0;
}
