// A row of a product of numbers of 256 bits, for the Cortex-M4: r1 points at the eight words of a, r2 is a word of b, and r0 points
// at the nine words of the sum so far. It adds a times b to the low eight of these; the carry is the ninth.
.macro column at
        ldr r4, [r1, #\at]
        ldr r5, [r0, #\at]
        umaal r5, r3, r4, r2
        str r5, [r0, #\at]
.endm
slothy_start:
        movw r3, #0
        column 0
        column 4
        column 8
        column 12
        column 16
        column 20
        column 24
        column 28
        str r3, [r0, #32]
slothy_end:
        bx lr
