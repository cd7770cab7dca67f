slothy_start:
        add x2, x1, x0
        eor x3, x2, x2
        add x2, x4, x0
        eor x5, x2, x2
slothy_end:
