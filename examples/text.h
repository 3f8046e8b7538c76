/* Texts and numbers for programs without a library; each is written by one call. */
#ifndef TEXT_H
#define TEXT_H

#include "lego.h"

static inline unsigned long length_of(const char *text)
{
    unsigned long length = 0;
    while (text[length] != 0)
        length++;
    return length;
}

static inline long put_text(int descriptor, const char *text)
{
    return write(descriptor, text, length_of(text));
}

/* In decimal. */
static inline long put_number(int descriptor, unsigned long number)
{
    char digits[20];
    char *end = digits + sizeof digits, *at = end;
    do {
        *--at = (char)('0' + number % 10);
        number /= 10;
    } while (number != 0);
    return write(descriptor, at, (unsigned long)(end - at));
}

#endif
