/* System calls for C programs without a library, under the names, the numbers and the flags of Linux. A call that fails gives
   minus the number of the error. Built for the machine on which the compiler runs, a program has the C library's functions of
   the same names. */
#ifndef LEGO_H
#define LEGO_H

#ifdef __riscv

/* The number is in a7, the arguments are in a0 to a2, the result comes in a0. */
static inline long system_call(long number, long first, long second, long third)
{
    register long a0 __asm__("a0") = first;
    register long a1 __asm__("a1") = second;
    register long a2 __asm__("a2") = third;
    register long a7 __asm__("a7") = number;
    __asm__ volatile("ecall" : "+r"(a0) : "r"(a1), "r"(a2), "r"(a7) : "memory");
    return a0;
}

/* The same with arguments in a0 to a5. */
static inline long long_system_call(long number, long first, long second, long third, long fourth, long fifth, long sixth)
{
    register long a0 __asm__("a0") = first;
    register long a1 __asm__("a1") = second;
    register long a2 __asm__("a2") = third;
    register long a3 __asm__("a3") = fourth;
    register long a4 __asm__("a4") = fifth;
    register long a5 __asm__("a5") = sixth;
    register long a7 __asm__("a7") = number;
    __asm__ volatile("ecall" : "+r"(a0) : "r"(a1), "r"(a2), "r"(a3), "r"(a4), "r"(a5), "r"(a7) : "memory");
    return a0;
}

enum {
    AT_FDCWD = -100,
    O_RDONLY = 0,
    O_WRONLY = 1,
    O_RDWR = 2,
    O_CREAT = 0x40,
    O_EXCL = 0x80,
    O_TRUNC = 0x200,
    O_APPEND = 0x400,
    O_CLOEXEC = 0x80000,
    SEEK_SET = 0,
    SEEK_CUR = 1,
    SEEK_END = 2,
    PROT_READ = 1,
    PROT_WRITE = 2,
    PROT_EXEC = 4,
    MAP_PRIVATE = 2,
    MAP_FIXED = 0x10,
    MAP_ANONYMOUS = 0x20,
    WNOHANG = 1,
    SIGCHLD = 17
};

/* One piece of readv and writev. */
struct iovec {
    void *iov_base;
    unsigned long iov_len;
};

/* The number of the error of a call that failed, by its result. */
static inline int error_of(long result)
{
    return (int)-result;
}

/* dup(2): gives the lowest free descriptor. */
static inline long dup(int descriptor)
{
    return system_call(23, descriptor, 0, 0);
}

/* dup3(2): `to` is closed first where it is open; the flags are 0 or O_CLOEXEC. */
static inline long dup3(int from, int to, int flags)
{
    return system_call(24, from, to, flags);
}

/* unlinkat(2): the directory is AT_FDCWD, the flags are 0. */
static inline long unlinkat(int directory, const char *path, int flags)
{
    return system_call(35, directory, (long)path, flags);
}

/* ftruncate(2) */
static inline long ftruncate(int descriptor, long size)
{
    return system_call(46, descriptor, size, 0);
}

/* openat(2): the directory is AT_FDCWD; the mode is that of a file that is made. */
static inline long openat(int directory, const char *path, int flags, int mode)
{
    return long_system_call(56, directory, (long)path, flags, mode, 0, 0);
}

/* close(2) */
static inline long close(int descriptor)
{
    return system_call(57, descriptor, 0, 0);
}

/* pipe2(2): the end to be read, then the end to be written; the flags are 0 or O_CLOEXEC. */
static inline long pipe2(int *ends, int flags)
{
    return system_call(59, (long)ends, flags, 0);
}

/* lseek(2): gives the new offset. */
static inline long lseek(int descriptor, long offset, int from)
{
    return system_call(62, descriptor, offset, from);
}

/* read(2): gives how many bytes it moved, 0 at the end, or minus the number of the error. */
static inline long read(int descriptor, void *bytes, unsigned long length)
{
    return system_call(63, descriptor, (long)bytes, (long)length);
}

/* write(2): gives the length, or minus the number of the error. */
static inline long write(int descriptor, const void *bytes, unsigned long length)
{
    return system_call(64, descriptor, (long)bytes, (long)length);
}

/* readv(2) */
static inline long readv(int descriptor, const struct iovec *pieces, int count)
{
    return system_call(65, descriptor, (long)pieces, count);
}

/* writev(2) */
static inline long writev(int descriptor, const struct iovec *pieces, int count)
{
    return system_call(66, descriptor, (long)pieces, count);
}

/* pread64(2): the offset of the descriptor stays. */
static inline long pread64(int descriptor, void *bytes, unsigned long length, long offset)
{
    return long_system_call(67, descriptor, (long)bytes, (long)length, offset, 0, 0);
}

/* pwrite64(2) */
static inline long pwrite64(int descriptor, const void *bytes, unsigned long length, long offset)
{
    return long_system_call(68, descriptor, (long)bytes, (long)length, offset, 0, 0);
}

/* exit(2) */
static inline _Noreturn void exit(int code)
{
    for (;;)
        system_call(93, code, 0, 0);
}

/* sched_yield(2): ends the turn, as each call does. */
static inline long sched_yield(void)
{
    return system_call(124, 0, 0, 0);
}

/* getpid(2) */
static inline long getpid(void)
{
    return system_call(172, 0, 0, 0);
}

/* getppid(2) */
static inline long getppid(void)
{
    return system_call(173, 0, 0, 0);
}

/* munmap(2) */
static inline long munmap(void *address, unsigned long length)
{
    return system_call(215, (long)address, (long)length, 0);
}

/* fork(2), which is clone(2) with SIGCHLD alone: gives the child's pid, and 0 in the child. */
static inline long fork(void)
{
    return system_call(220, SIGCHLD, 0, 0);
}

/* execve(2): comes back only where it failed. */
static inline long execve(const char *path, char *const *arguments, char *const *environment)
{
    return system_call(221, (long)path, (long)arguments, (long)environment);
}

/* mmap(2): the flags are MAP_PRIVATE | MAP_ANONYMOUS, with or without MAP_FIXED. */
static inline void *mmap(void *address, unsigned long length, int permissions, int flags, int descriptor, long offset)
{
    return (void *)long_system_call(222, (long)address, (long)length, permissions, flags, descriptor, offset);
}

/* mprotect(2) */
static inline long mprotect(void *address, unsigned long length, int permissions)
{
    return system_call(226, (long)address, (long)length, permissions);
}

/* wait4(2): the pid is that of a child, or -1; the usage is 0. */
static inline long wait4(int pid, int *status, int options, void *usage)
{
    return long_system_call(260, pid, (long)status, options, (long)usage, 0, 0);
}

#else

#define _GNU_SOURCE
#include <errno.h>
#include <fcntl.h>
#include <sched.h>
#include <stdlib.h>
#include <sys/mman.h>
#include <sys/uio.h>
#include <sys/wait.h>
#include <unistd.h>

static inline int error_of(long result)
{
    return result < 0 ? errno : 0;
}

#endif

/* Of the status that wait4 gives: the signal that the process died by, 0 where it exited, and then the code. */
static inline int signal_of(int status)
{
    return status & 127;
}

static inline int code_of(int status)
{
    return status >> 8 & 255;
}

#endif
