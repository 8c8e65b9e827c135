# Copies the file that its first argument names to the one that its second names, which it makes or empties first.
# Its status is 0, or the number of the error of the call that was refused.
start:
    addi a0, zero, -100
    ld a1, 16(sp)
    addi a2, zero, 0
    addi a7, zero, 56
    ecall
    blt a0, zero, done
    addi s0, a0, 0
    addi a0, zero, -100
    ld a1, 24(sp)
    addi a2, zero, 0x241
    addi a3, zero, 420
    ecall
    blt a0, zero, done
    addi s1, a0, 0
    lui s2, 0x20
    lui s3, 1
piece:
    addi a0, s0, 0
    addi a1, s2, 0
    addi a2, s3, 0
    addi a7, zero, 63
    ecall
    bge zero, a0, done
    addi a2, a0, 0
    addi a0, s1, 0
    addi a7, zero, 64
    ecall
    blt zero, a0, piece
done:
    sub a0, zero, a0
    addi a7, zero, 93
    ecall
