# Hashes, matrices and sorting, as a program does them that wasn't written for a machine's sake: calls, frames, bytes, words and
# branches that go either way. It does them so many times, and writes the hash of what came out, in eight digits.
#
# bench/image makes the executable. `.zeros` are the bytes that can be written; s0 is their first address, and sp their last.

    .zeros 131072
    .set   ROUNDS 40
    .set   WORDS 2048

start:
    li      s0, ZEROS
    li      sp, ZEROS_END
    li      s1, ROUNDS
    li      s2, 2463534242
    li      s3, 0
round:
    mv      a0, s0
    li      a1, WORDS
    mv      a2, s2
    call    fill
    mv      s2, a0
    mv      a0, s0
    li      a1, WORDS
    call    hash
    xor     s3, s3, a0
    mv      a0, s0
    li      a1, WORDS
    slli    a1, a1, 2
    add     a1, a1, a0
    call    sort
    mv      a0, s0
    call    multiply
    mv      a0, s0
    li      a1, WORDS
    call    hash
    xor     s3, s3, a0
    addi    s1, s1, -1
    bnez    s1, round
    mv      a0, s3
    call    write
    li      a7, 93
    li      a0, 0
    ecall

# a1 words from a0 on, each after the seed a2; the last one is the next seed
fill:
    slli    t0, a2, 13
    xor     a2, a2, t0
    srli    t0, a2, 17
    xor     a2, a2, t0
    slli    t0, a2, 5
    xor     a2, a2, t0
    sw      a2, 0(a0)
    addi    a0, a0, 4
    addi    a1, a1, -1
    bnez    a1, fill
    mv      a0, a2
    ret

# the hash of the bytes of a1 words from a0 on
hash:
    slli    a1, a1, 2
    add     a1, a1, a0
    li      t0, 2166136261
    li      t1, 16777619
hash_byte:
    lbu     t2, 0(a0)
    xor     t0, t0, t2
    mul     t0, t0, t1
    addi    a0, a0, 1
    bltu    a0, a1, hash_byte
    mv      a0, t0
    ret

# sorts the words from a0 up to a1, by the first one as the pivot
sort:
    sub     t0, a1, a0
    li      t1, 8
    bltu    t0, t1, sorted
    addi    sp, sp, -16
    sw      ra, 12(sp)
    sw      s4, 8(sp)
    sw      s5, 4(sp)
    mv      s5, a1
    lw      t0, 0(a0)
    mv      s4, a0
    addi    t1, a0, 4
part:
    lw      t2, 0(t1)
    bgeu    t2, t0, behind
    addi    s4, s4, 4
    lw      t3, 0(s4)
    sw      t2, 0(s4)
    sw      t3, 0(t1)
behind:
    addi    t1, t1, 4
    bltu    t1, a1, part
    lw      t2, 0(s4)
    sw      t0, 0(s4)
    sw      t2, 0(a0)
    mv      a1, s4
    call    sort
    addi    a0, s4, 4
    mv      a1, s5
    call    sort
    lw      s5, 4(sp)
    lw      s4, 8(sp)
    lw      ra, 12(sp)
    addi    sp, sp, 16
sorted:
    ret

# the matrix of 16 rows of 16 words from a0 on, multiplied by the one behind it, in the place of the third
multiply:
    addi    a1, a0, 1024
    addi    a2, a1, 1024
    li      t0, 16
row:
    li      t1, 16
column:
    li      t2, 16
    li      t3, 0
    mv      t4, a0
    mv      t5, a1
product:
    lw      a3, 0(t4)
    lw      a4, 0(t5)
    mul     a3, a3, a4
    add     t3, t3, a3
    addi    t4, t4, 4
    addi    t5, t5, 64
    addi    t2, t2, -1
    bnez    t2, product
    sw      t3, 0(a2)
    addi    a2, a2, 4
    addi    a1, a1, 4
    addi    t1, t1, -1
    bnez    t1, column
    addi    a1, a1, -64
    addi    a0, a0, 64
    addi    t0, t0, -1
    bnez    t0, row
    ret

# writes a0 in eight digits and a line's end
write:
    addi    sp, sp, -16
    mv      t0, sp
    li      t1, 28
digit:
    srl     t2, a0, t1
    andi    t2, t2, 15
    li      t3, 10
    bltu    t2, t3, decimal
    addi    t2, t2, 39
decimal:
    addi    t2, t2, 48
    sb      t2, 0(t0)
    addi    t0, t0, 1
    addi    t1, t1, -4
    bge     t1, zero, digit
    li      t2, 10
    sb      t2, 0(t0)
    li      a7, 64
    li      a0, 1
    mv      a1, sp
    li      a2, 9
    ecall
    addi    sp, sp, 16
    ret
