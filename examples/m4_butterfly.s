// Two butterflies of the number-theoretic transform modulo 3329 at once, for the Cortex-M4: a word at r0 holds a0 and a1, signed
// with 16 bits, and one 256 bytes behind it b0 and b1. It leaves a + z b and a - z b modulo 3329 in their places, z a root of unity. The product is
// Plantard's: r1 holds z (-2^32 mod 3329) / 3329 modulo 2^32, r2 the modulus, r3 eight times it.
.macro product to, other, root, q, q8
        smulwb \to, \root, \other
        smulwt \other, \root, \other
        smlabb \to, \to, \q, \q8
        smlabb \other, \other, \q, \q8
        pkhtb \to, \other, \to, asr #16
.endm
.macro butterflies a, b, t, root, q, q8
        product \t, \b, \root, \q, \q8
        usub16 \b, \a, \t
        uadd16 \a, \a, \t
.endm
root    .req r1
q       .req r2
q8      .req r3
slothy_start:
        ldr.w r4, [r0]          @ a
        ldr.w r5, [r0, #256]    @ b
        butterflies r4, r5, r6, root, q, q8
        str.w r4, [r0]
        str.w r5, [r0, #256]
slothy_end:
        bx lr
