start:
    la a0, start
    beq x0, x0, start
