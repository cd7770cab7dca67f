// one butterfly of the number-theoretic transform: b' = a - z b, a' = a + z b
f:
        ldr q0, [x0]
        ldr q1, [x0, #16]
        sqrdmulh v5.8h, v1.8h, v2.h[1]
        mul v4.8h, v1.8h, v2.h[0]
        mls v4.8h, v5.8h, v3.h[0]
        sub v1.8h, v0.8h, v4.8h
        add v0.8h, v0.8h, v4.8h
        str q0, [x0]
        str q1, [x0, #16]
        add x0, x0, #32
        ret
