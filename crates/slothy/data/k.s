slothy_start:
        ldr x1, [x0]
        add x2, x1, x3
        ldr x4, [x0, #8]
        add x5, x4, x3
slothy_end:
