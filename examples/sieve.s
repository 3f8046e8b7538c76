# Counts the primes below BOUND with the sieve of Eratosthenes and prints their number.

    .equ BOUND, 20000

    .globl _start
    .text
_start:
    la   s0, crossed            # one byte a number, 1 where it is crossed out
    li   s1, BOUND
    .include "sieve_loop.inc"   # s2: the primes below s1

# The digits are made from the last to the first, in front of the newline.
    la   a1, text_end
    li   t0, '\n'
    addi a1, a1, -1
    sb   t0, 0(a1)
    li   t1, 10
next_digit:
    remu t0, s2, t1
    divu s2, s2, t1
    addi t0, t0, '0'
    addi a1, a1, -1
    sb   t0, 0(a1)
    bnez s2, next_digit

    li   a0, 1                  # standard output
    la   a2, text_end
    sub  a2, a2, a1
    li   a7, 64                 # write
    ecall
    li   a0, 0
    li   a7, 93                 # exit
    ecall

    .bss
crossed:
    .skip BOUND
text:
    .skip 24
text_end:
