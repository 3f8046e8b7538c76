# Exits at once: what is left is the cost of start-up.

    .globl _start
    .text
_start:
    li   a7, 93                 # exit
    ecall
