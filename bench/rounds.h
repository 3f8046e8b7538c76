/* Numbers among the arguments of the programs of this folder. */
#ifndef ROUNDS_H
#define ROUNDS_H

/* The decimal number in an argument; 0 where there is none. */
static inline unsigned long number_at(int count, char **arguments, int place)
{
    unsigned long number = 0;
    if (count <= place)
        return 0;
    for (const char *digit = arguments[place]; *digit != 0; digit++)
        number = 10 * number + (unsigned long)(*digit - '0');
    return number;
}

/* How many rounds a program runs: what its first argument says, or without end, which 0 stands for, where there is none. */
static inline unsigned long rounds_in(int count, char **arguments)
{
    return number_at(count, arguments, 1);
}

#endif
