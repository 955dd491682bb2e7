# A loop of five instructions, among them a store and a load, that is done so many times.

    .zeros 65536
    .set   TURNS 2000000

start:
    li      t1, ZEROS
    li      t0, TURNS
turn:
    addi    t1, t1, 0
    sw      t0, 8(t1)
    lw      t2, 8(t1)
    addi    t0, t0, -1
    bnez    t0, turn
    li      a7, 93
    li      a0, 0
    ecall
