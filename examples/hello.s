# Writes a greeting and exits.

    .globl _start
    .text
_start:
    li   a0, 1                  # standard output
    la   a1, greeting
    la   a2, greeting_end
    sub  a2, a2, a1             # its length in bytes
    li   a7, 64                 # write
    ecall
    li   a0, 0
    li   a7, 93                 # exit
    ecall

    .section .rodata
greeting:
    .ascii "hello, splitkernel\n"
greeting_end:
