# Runs on without end: a loop of 23 instructions on registers alone, two products and a remainder among them.

    .globl _start
    .text
_start:
    li   s0, 1
    li   s1, 0x5851f42d4c957f2d
    li   s2, 0
    li   s3, 1000
round:
    mul  s0, s0, s1
    addi s0, s0, 1
    srli t0, s0, 33
    xor  t0, t0, s0
    slli t1, t0, 7
    sub  t1, t1, t0
    sltu t2, t1, s0
    add  s2, s2, t2
    mulhu t3, t1, s1
    or   t3, t3, t2
    andi t4, t3, 255
    addw t5, t4, t1
    sraiw t5, t5, 3
    remu t6, t3, s3
    add  s2, s2, t6
    sll  t0, t5, t4
    srl  t1, t0, t2
    xori t1, t1, -1
    slt  t2, t1, t5
    sub  s2, s2, t2
    subw t3, t5, s2
    add  s2, s2, t3
    bne  s0, x0, round
    j    round
