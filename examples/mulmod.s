// one butterfly
.macro mulmod dst, src, z, i, j
        sqrdmulh t2.8h, \src\().8h, \z\().h[\j]
        mul \dst\().8h, \src\().8h, \z\().h[\i]
        mls \dst\().8h, t2.8h, consts.h[0]
.endm
.macro butterfly a, b, z, i, j
        mulmod t, \b, \z, \i, \j
        sub \b\().8h, \a\().8h, t.8h
        add \a\().8h, \a\().8h, t.8h
.endm
f:
        even .req v0
        odd .req v1
        zetas .req v2
        consts .req v3
        t .req v4
        t2 .req v5
slothy_start:
        ldr q0, [x0]
        ldr q1, [x0, #16]
        butterfly even, odd, zetas, 0, 1
        str q0, [x0]
        str q1, [x0, #16]
        add x0, x0, #32
slothy_end:
        ret
