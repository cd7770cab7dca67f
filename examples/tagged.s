slothy_start:
        str x1, [x0] // @slothy:mem=out
        ldr x2, [x3] // @slothy:mem=in
        add x4, x2, x5
slothy_end:
