// A butterfly of the number-theoretic transform modulo 3329, on eight signed lanes of 16 bits: from v0 = a, v1 = b and a
// root z it gives v0 = a + z b and v1 = a - z b, modulo 3329. v7 holds z, z 2^15 / 3329 rounded, and 3329. The product is
// by Barrett's method with a rounded quotient: z b - 3329 round(b z' / 2^15).
slothy_start:
        mul      v2.8h, v1.8h, v7.h[0]
        sqrdmulh v3.8h, v1.8h, v7.h[1]
        mls      v2.8h, v3.8h, v7.h[2]
        sub      v1.8h, v0.8h, v2.8h
        add      v0.8h, v0.8h, v2.8h
slothy_end:
