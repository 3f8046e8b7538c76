# The sieve of Eratosthenes below BOUND, again and again: the rounds of its argument, or without end where there
# is none.

    .equ BOUND, 8192

    .globl _start
    .text
_start:
    la   s0, crossed            # one byte a number, 1 where it is crossed out
    li   s1, BOUND
    li   s3, 0                  # rounds to go; 0 stands for no end
    ld   t0, 0(sp)              # the number of arguments, its own name among them
    li   t1, 2
    bltu t0, t1, again
    ld   t0, 16(sp)             # the first behind the name
    li   t2, 10
next_digit:
    lbu  t1, 0(t0)
    beqz t1, again
    mul  s3, s3, t2
    add  s3, s3, t1
    addi s3, s3, -'0'
    addi t0, t0, 1
    j    next_digit
again:
    mv   t1, s0
    add  t2, s0, s1
clear:
    sb   x0, 0(t1)
    addi t1, t1, 1
    bltu t1, t2, clear
    .include "sieve_loop.inc"   # s2: the primes below s1
    addi s3, s3, -1
    bnez s3, again
    li   a0, 0
    li   a7, 93                 # exit
    ecall

    .bss
crossed:
    .skip BOUND
