slothy_start:
        add x2, x1, x0
        eor x3, x2, x2
        sub x4, x1, x0
slothy_end:
