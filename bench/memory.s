# Runs on without end: aligned loads and stores of each width over 16 pages, 104 bytes further in each round,
# so that it comes to every page again and again.

    .equ PAGES, 16
    .equ BYTES, 4096 * PAGES
    .equ STEP, 104

    .globl _start
    .text
_start:
    la   s0, pages
    li   s1, BYTES - 64
    li   s2, 0                  # the offset at hand
round:
    add  t0, s0, s2
    ld   t1, 0(t0)
    addi t1, t1, 1
    sd   t1, 0(t0)
    lw   t2, 8(t0)
    sw   t2, 12(t0)
    lhu  t3, 16(t0)
    sh   t3, 18(t0)
    lbu  t4, 24(t0)
    sb   t4, 25(t0)
    addi s2, s2, STEP
    bltu s2, s1, round
    li   s2, 0
    j    round

    .bss
    .balign 4096
pages:
    .skip BYTES
