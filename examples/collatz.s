# Finds the start below BOUND from which the Collatz sequence takes the most steps to reach 1, and prints
# `START STEPS`. The sequence halves an even number n and goes from an odd one to 3n + 1.

    .equ BOUND, 1000

    .globl _start
    .text
_start:
    li   s0, 1                  # the start at hand
    li   s1, BOUND
    li   s2, 0                  # the best start
    li   s3, -1                 # its steps
next_start:
    mv   a0, s0
    call steps
    ble  a0, s3, not_better
    mv   s2, s0
    mv   s3, a0
not_better:
    addi s0, s0, 1
    bltu s0, s1, next_start

    la   s4, line_end           # the line grows from its end
    li   a1, '\n'
    call put
    mv   a0, s3
    call put_number
    li   a1, ' '
    call put
    mv   a0, s2
    call put_number

    li   a0, 1                  # standard output
    mv   a1, s4
    la   a2, line_end
    sub  a2, a2, s4
    li   a7, 64                 # write
    ecall
    li   a0, 0
    li   a7, 93                 # exit
    ecall

# a0: the number of steps from a0 to 1.
steps:
    mv   t0, a0
    li   a0, 0
    li   t1, 1
1:  beq  t0, t1, 3f
    andi t2, t0, 1
    srli t3, t0, 1
    beqz t2, 2f
    slli t3, t0, 1
    add  t3, t3, t0
    addi t3, t3, 1
2:  mv   t0, t3
    addi a0, a0, 1
    j    1b
3:  ret

# Puts the byte a1 in front of the line at s4.
put:
    addi s4, s4, -1
    sb   a1, 0(s4)
    ret

# Puts the number a0 in decimal in front of the line at s4.
put_number:
    addi sp, sp, -16
    sd   ra, 8(sp)
1:  li   t1, 10
    remu a1, a0, t1
    divu a0, a0, t1
    addi a1, a1, '0'
    call put
    bnez a0, 1b
    ld   ra, 8(sp)
    addi sp, sp, 16
    ret

    .bss
line:
    .skip 64
line_end:
