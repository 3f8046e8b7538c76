/* An interpreter of a small machine with a stack, whose program adds up the numbers from 1000 to 1: the rounds
   of its argument, or without end where there is none. */
#include "lego.h"
#include "rounds.h"

enum op { PUSH, LOAD, STORE, ADD, SUBTRACT, JUMP_UNLESS_ZERO, STOP };

struct instruction {
    enum op op;
    long operand; /* a number, a variable or the place of an instruction */
};

enum { NUMBER, SUM, VARIABLES };

static const struct instruction program[] = {
    {PUSH, 1000}, {STORE, NUMBER}, {PUSH, 0}, {STORE, SUM},
    {LOAD, SUM}, {LOAD, NUMBER}, {ADD, 0}, {STORE, SUM},
    {LOAD, NUMBER}, {PUSH, 1}, {SUBTRACT, 0}, {STORE, NUMBER},
    {LOAD, NUMBER}, {JUMP_UNLESS_ZERO, 4},
    {STOP, 0},
};

static long variables[VARIABLES];
static long stack[16];

static void run(void)
{
    const struct instruction *at = program;
    long *top = stack;
    for (;;) {
        const struct instruction *now = at++;
        switch (now->op) {
        case PUSH:
            *top++ = now->operand;
            break;
        case LOAD:
            *top++ = variables[now->operand];
            break;
        case STORE:
            variables[now->operand] = *--top;
            break;
        case ADD:
            top--;
            top[-1] += *top;
            break;
        case SUBTRACT:
            top--;
            top[-1] -= *top;
            break;
        case JUMP_UNLESS_ZERO:
            if (*--top != 0)
                at = program + now->operand;
            break;
        case STOP:
            return;
        }
    }
}

int main(int count, char **arguments)
{
    unsigned long rounds = rounds_in(count, arguments);
    do
        run();
    while (--rounds != 0);
    return variables[SUM] == 500500 ? 0 : 1;
}
