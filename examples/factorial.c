/* Prints the factorial of NUMBER in decimal. */
#include "lego.h"

enum {
    NUMBER = 100,
    LIMBS = 18,  /* 100! has 158 digits */
    DIGITS = 9   /* decimal digits of a limb */
};

static const unsigned long BASE = 1000000000;

static unsigned long limbs[LIMBS];         /* least first, each below BASE */
static char text[LIMBS * DIGITS + 1];

static void multiply(unsigned long factor)
{
    unsigned long carry = 0;
    for (int i = 0; i < LIMBS; i++) {
        unsigned long product = limbs[i] * factor + carry;
        limbs[i] = product % BASE;
        carry = product / BASE;
    }
}

/* Writes all digits with leading zeros. */
static void write_digits(void)
{
    char *at = text + LIMBS * DIGITS;
    for (int i = 0; i < LIMBS; i++) {
        unsigned long rest = limbs[i];
        for (int digit = 0; digit < DIGITS; digit++) {
            *--at = (char)('0' + rest % 10);
            rest /= 10;
        }
    }
}

int main(void)
{
    limbs[0] = 1;
    for (unsigned long factor = 2; factor <= NUMBER; factor++)
        multiply(factor);
    write_digits();
    text[LIMBS * DIGITS] = '\n';
    unsigned long first = 0;
    while (text[first] == '0')
        first++;
    unsigned long length = LIMBS * DIGITS + 1 - first;
    return write(1, text + first, length) == (long)length ? 0 : 1;
}
