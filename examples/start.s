# The start of a C program: calls `main` with the arguments and the environment that stand on the stack, and
# exits with its result. Below it are the two functions that compilers call by themselves where a program
# sets or copies many bytes.

    .globl _start
    .text
_start:
    ld   a0, 0(sp)              # argc
    addi a1, sp, 8              # argv
    addi a2, a0, 2              # envp is behind argc, the arguments' addresses and a 0
    slli a2, a2, 3
    add  a2, a2, sp
    call main
    li   a7, 93                 # exit
    ecall

# void *memset(void *to, int byte, size_t count)
    .section .text.memset, "ax"
    .globl memset
memset:
    add  a2, a0, a2
    mv   t0, a0
1:  beq  t0, a2, 2f
    sb   a1, 0(t0)
    addi t0, t0, 1
    j    1b
2:  ret

# void *memcpy(void *to, const void *from, size_t count)
    .section .text.memcpy, "ax"
    .globl memcpy
memcpy:
    add  a2, a1, a2
    mv   t0, a0
1:  beq  a1, a2, 2f
    lbu  t1, 0(a1)
    sb   t1, 0(t0)
    addi a1, a1, 1
    addi t0, t0, 1
    j    1b
2:  ret
