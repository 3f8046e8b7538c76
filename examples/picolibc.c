/* What picolibc needs of the machine: three streams over read and write, memory for malloc from brk, and an end. Standard output
   is written a line at a time and the break moves by steps, since each call ends a turn. `main` is wrapped (-Wl,--wrap=main), so that the thread's own
   variables, as errno, have their place, and so that what is in the buffer goes out at the end. */
#include <errno.h>
#include <stddef.h>
#include <stdio.h>
#include <unistd.h>

enum { LINE = 512, STEP = 1 << 16 };

static long system_call(long number, long first, long second, long third)
{
    register long a0 __asm__("a0") = first;
    register long a1 __asm__("a1") = second;
    register long a2 __asm__("a2") = third;
    register long a7 __asm__("a7") = number;
    __asm__ volatile("ecall" : "+r"(a0) : "r"(a1), "r"(a2), "r"(a7) : "memory");
    return a0;
}

static char line[LINE];
static size_t line_length;

static int flush_line(FILE *file)
{
    (void)file;
    size_t length = line_length;
    line_length = 0;
    return length == 0 || system_call(64, 1, (long)line, (long)length) == (long)length ? 0 : EOF;
}

static int put_out(char letter, FILE *file)
{
    line[line_length++] = letter;
    if ((letter == '\n' || line_length == LINE) && flush_line(file) != 0)
        return EOF;
    return (unsigned char)letter;
}

static int put_err(char letter, FILE *file)
{
    (void)file;
    return system_call(64, 2, (long)&letter, 1) == 1 ? (unsigned char)letter : EOF;
}

static int get_in(FILE *file)
{
    static unsigned char piece[LINE];
    static long length, place;
    (void)file;
    if (place >= length) {
        length = system_call(63, 0, (long)piece, LINE);
        place = 0;
    }
    return place < length ? piece[place++] : EOF;
}

static FILE in = FDEV_SETUP_STREAM(NULL, get_in, NULL, _FDEV_SETUP_READ);
static FILE out = FDEV_SETUP_STREAM(put_out, NULL, flush_line, _FDEV_SETUP_WRITE);
static FILE err = FDEV_SETUP_STREAM(put_err, NULL, NULL, _FDEV_SETUP_WRITE);
FILE *const stdin = &in, *const stdout = &out, *const stderr = &err;

/* The break, which moves up by whole steps, so that not each piece of memory is a call. */
void *sbrk(ptrdiff_t more)
{
    static long used, end;
    if (end == 0)
        used = end = system_call(214, 0, 0, 0);
    long start = used;
    if (start + more > end) {
        long wanted = (start + more + STEP - 1) / STEP * STEP;
        if (system_call(214, wanted, 0, 0) != wanted) {
            errno = ENOMEM;
            return (void *)-1;
        }
        end = wanted;
    }
    used += more;
    return (void *)start;
}

_Noreturn void _exit(int code)
{
    flush_line(stdout);
    for (;;)
        system_call(93, code, 0, 0);
}

static char thread_variables[64] __attribute__((aligned(16)));

int __real_main(int count, char **words, char **environment);

int __wrap_main(int count, char **words, char **environment)
{
    __asm__ volatile("mv tp, %0" : : "r"(thread_variables));
    int code = __real_main(count, words, environment);
    flush_line(stdout);
    return code;
}
