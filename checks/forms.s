// One spelling of each row of the table of AArch64, in its order.
        add x3, x17, x29
        add x3, x17, x29, lsl #63
        add x3, x17, x29, lsr #63
        add x3, x17, x29, asr #63
        add w3, w17, w29
        add w3, w17, w29, lsl #31
        add w3, w17, w29, lsr #31
        add w3, w17, w29, asr #31
        sub x3, x17, x29
        sub x3, x17, x29, lsl #63
        sub x3, x17, x29, lsr #63
        sub x3, x17, x29, asr #63
        sub w3, w17, w29
        sub w3, w17, w29, lsl #31
        sub w3, w17, w29, lsr #31
        sub w3, w17, w29, asr #31
        add x3, x17, #4095
        add x3, x17, #4095, lsl #12
        add w3, w17, #4095
        add w3, w17, #4095, lsl #12
        sub x3, x17, #4095
        sub x3, x17, #4095, lsl #12
        sub w3, w17, #4095
        sub w3, w17, #4095, lsl #12
        adds x3, x17, x29
        adds x3, x17, x29, lsl #63
        adds x3, x17, x29, lsr #63
        adds x3, x17, x29, asr #63
        adds w3, w17, w29
        adds w3, w17, w29, lsl #31
        adds w3, w17, w29, lsr #31
        adds w3, w17, w29, asr #31
        subs x3, x17, x29
        subs x3, x17, x29, lsl #63
        subs x3, x17, x29, lsr #63
        subs x3, x17, x29, asr #63
        subs w3, w17, w29
        subs w3, w17, w29, lsl #31
        subs w3, w17, w29, lsr #31
        subs w3, w17, w29, asr #31
        adds x3, x17, #4095
        adds x3, x17, #4095, lsl #12
        adds w3, w17, #4095
        adds w3, w17, #4095, lsl #12
        subs x3, x17, #4095
        subs x3, x17, #4095, lsl #12
        subs w3, w17, #4095
        subs w3, w17, #4095, lsl #12
        adc x3, x17, x29
        adc w3, w17, w29
        sbc x3, x17, x29
        sbc w3, w17, w29
        adcs x3, x17, x29
        adcs w3, w17, w29
        sbcs x3, x17, x29
        sbcs w3, w17, w29
        and x3, x17, x29
        and x3, x17, x29, lsl #63
        and x3, x17, x29, lsr #63
        and x3, x17, x29, asr #63
        and x3, x17, x29, ror #63
        and w3, w17, w29
        and w3, w17, w29, lsl #31
        and w3, w17, w29, lsr #31
        and w3, w17, w29, asr #31
        and w3, w17, w29, ror #31
        orr x3, x17, x29
        orr x3, x17, x29, lsl #63
        orr x3, x17, x29, lsr #63
        orr x3, x17, x29, asr #63
        orr x3, x17, x29, ror #63
        orr w3, w17, w29
        orr w3, w17, w29, lsl #31
        orr w3, w17, w29, lsr #31
        orr w3, w17, w29, asr #31
        orr w3, w17, w29, ror #31
        eor x3, x17, x29
        eor x3, x17, x29, lsl #63
        eor x3, x17, x29, lsr #63
        eor x3, x17, x29, asr #63
        eor x3, x17, x29, ror #63
        eor w3, w17, w29
        eor w3, w17, w29, lsl #31
        eor w3, w17, w29, lsr #31
        eor w3, w17, w29, asr #31
        eor w3, w17, w29, ror #31
        bic x3, x17, x29
        bic x3, x17, x29, lsl #63
        bic x3, x17, x29, lsr #63
        bic x3, x17, x29, asr #63
        bic x3, x17, x29, ror #63
        bic w3, w17, w29
        bic w3, w17, w29, lsl #31
        bic w3, w17, w29, lsr #31
        bic w3, w17, w29, asr #31
        bic w3, w17, w29, ror #31
        mov x3, x17
        mov w3, w17
        movz x3, #65535
        movz x3, #65535, lsl #48
        movz w3, #65535
        movz w3, #65535, lsl #16
        mov x3, #65535
        mov w3, #65535
        movk x3, #65535
        movk x3, #65535, lsl #48
        movk w3, #65535
        movk w3, #65535, lsl #16
        mul x3, x17, x29
        mul w3, w17, w29
        madd x3, x17, x29, x11
        madd w3, w17, w29, w11
        msub x3, x17, x29, x11
        msub w3, w17, w29, w11
        umulh x3, x17, x29
        smulh x3, x17, x29
        umull x3, w17, w29
        smull x3, w17, w29
        extr x3, x17, x29, #63
        extr w3, w17, w29, #31
        lsl x3, x17, #63
        lsl w3, w17, #31
        lsr x3, x17, #63
        lsr w3, w17, #31
        asr x3, x17, #63
        asr w3, w17, #31
        ror x3, x17, #63
        ror w3, w17, #31
        ubfx x3, x17, #63, #1
        ubfx w3, w17, #31, #1
        csel x3, x17, x29, le
        csel w3, w17, w29, le
        add v3.8b, v17.8b, v29.8b
        add v3.16b, v17.16b, v29.16b
        add v3.4h, v17.4h, v29.4h
        add v3.8h, v17.8h, v29.8h
        add v3.2s, v17.2s, v29.2s
        add v3.4s, v17.4s, v29.4s
        add v3.2d, v17.2d, v29.2d
        sub v3.8b, v17.8b, v29.8b
        sub v3.16b, v17.16b, v29.16b
        sub v3.4h, v17.4h, v29.4h
        sub v3.8h, v17.8h, v29.8h
        sub v3.2s, v17.2s, v29.2s
        sub v3.4s, v17.4s, v29.4s
        sub v3.2d, v17.2d, v29.2d
        and v3.8b, v17.8b, v29.8b
        and v3.16b, v17.16b, v29.16b
        orr v3.8b, v17.8b, v29.8b
        orr v3.16b, v17.16b, v29.16b
        eor v3.8b, v17.8b, v29.8b
        eor v3.16b, v17.16b, v29.16b
        bic v3.8b, v17.8b, v29.8b
        bic v3.16b, v17.16b, v29.16b
        mov v3.8b, v17.8b
        mov v3.16b, v17.16b
        mul v3.8b, v17.8b, v29.8b
        mul v3.16b, v17.16b, v29.16b
        mul v3.4h, v17.4h, v29.4h
        mul v3.8h, v17.8h, v29.8h
        mul v3.2s, v17.2s, v29.2s
        mul v3.4s, v17.4s, v29.4s
        mla v3.8b, v17.8b, v29.8b
        mla v3.16b, v17.16b, v29.16b
        mla v3.4h, v17.4h, v29.4h
        mla v3.8h, v17.8h, v29.8h
        mla v3.2s, v17.2s, v29.2s
        mla v3.4s, v17.4s, v29.4s
        mls v3.8b, v17.8b, v29.8b
        mls v3.16b, v17.16b, v29.16b
        mls v3.4h, v17.4h, v29.4h
        mls v3.8h, v17.8h, v29.8h
        mls v3.2s, v17.2s, v29.2s
        mls v3.4s, v17.4s, v29.4s
        sqdmulh v3.4h, v17.4h, v29.4h
        sqdmulh v3.8h, v17.8h, v29.8h
        sqdmulh v3.2s, v17.2s, v29.2s
        sqdmulh v3.4s, v17.4s, v29.4s
        sqrdmulh v3.4h, v17.4h, v29.4h
        sqrdmulh v3.8h, v17.8h, v29.8h
        sqrdmulh v3.2s, v17.2s, v29.2s
        sqrdmulh v3.4s, v17.4s, v29.4s
        mul v3.4h, v17.4h, v13.h[7]
        mul v3.8h, v17.8h, v13.h[7]
        mul v3.2s, v17.2s, v29.s[3]
        mul v3.4s, v17.4s, v29.s[3]
        sqdmulh v3.4h, v17.4h, v13.h[7]
        sqdmulh v3.8h, v17.8h, v13.h[7]
        sqdmulh v3.2s, v17.2s, v29.s[3]
        sqdmulh v3.4s, v17.4s, v29.s[3]
        sqrdmulh v3.4h, v17.4h, v13.h[7]
        sqrdmulh v3.8h, v17.8h, v13.h[7]
        sqrdmulh v3.2s, v17.2s, v29.s[3]
        sqrdmulh v3.4s, v17.4s, v29.s[3]
        mla v3.4h, v17.4h, v13.h[7]
        mla v3.8h, v17.8h, v13.h[7]
        mla v3.2s, v17.2s, v29.s[3]
        mla v3.4s, v17.4s, v29.s[3]
        mls v3.4h, v17.4h, v13.h[7]
        mls v3.8h, v17.8h, v13.h[7]
        mls v3.2s, v17.2s, v29.s[3]
        mls v3.4s, v17.4s, v29.s[3]
        smull v3.8h, v17.8b, v29.8b
        smull v3.4s, v17.4h, v29.4h
        smull v3.2d, v17.2s, v29.2s
        umull v3.8h, v17.8b, v29.8b
        umull v3.4s, v17.4h, v29.4h
        umull v3.2d, v17.2s, v29.2s
        smlal v3.8h, v17.8b, v29.8b
        smlal v3.4s, v17.4h, v29.4h
        smlal v3.2d, v17.2s, v29.2s
        umlal v3.8h, v17.8b, v29.8b
        umlal v3.4s, v17.4h, v29.4h
        umlal v3.2d, v17.2s, v29.2s
        smull2 v3.8h, v17.16b, v29.16b
        smull2 v3.4s, v17.8h, v29.8h
        smull2 v3.2d, v17.4s, v29.4s
        umull2 v3.8h, v17.16b, v29.16b
        umull2 v3.4s, v17.8h, v29.8h
        umull2 v3.2d, v17.4s, v29.4s
        smlal2 v3.8h, v17.16b, v29.16b
        smlal2 v3.4s, v17.8h, v29.8h
        smlal2 v3.2d, v17.4s, v29.4s
        umlal2 v3.8h, v17.16b, v29.16b
        umlal2 v3.4s, v17.8h, v29.8h
        umlal2 v3.2d, v17.4s, v29.4s
        shl v3.8b, v17.8b, #7
        shl v3.16b, v17.16b, #7
        shl v3.4h, v17.4h, #15
        shl v3.8h, v17.8h, #15
        shl v3.2s, v17.2s, #31
        shl v3.4s, v17.4s, #31
        shl v3.2d, v17.2d, #63
        sli v3.8b, v17.8b, #7
        sli v3.16b, v17.16b, #7
        sli v3.4h, v17.4h, #15
        sli v3.8h, v17.8h, #15
        sli v3.2s, v17.2s, #31
        sli v3.4s, v17.4s, #31
        sli v3.2d, v17.2d, #63
        sshr v3.8b, v17.8b, #8
        sshr v3.16b, v17.16b, #8
        sshr v3.4h, v17.4h, #16
        sshr v3.8h, v17.8h, #16
        sshr v3.2s, v17.2s, #32
        sshr v3.4s, v17.4s, #32
        sshr v3.2d, v17.2d, #64
        ushr v3.8b, v17.8b, #8
        ushr v3.16b, v17.16b, #8
        ushr v3.4h, v17.4h, #16
        ushr v3.8h, v17.8h, #16
        ushr v3.2s, v17.2s, #32
        ushr v3.4s, v17.4s, #32
        ushr v3.2d, v17.2d, #64
        srshr v3.8b, v17.8b, #8
        srshr v3.16b, v17.16b, #8
        srshr v3.4h, v17.4h, #16
        srshr v3.8h, v17.8h, #16
        srshr v3.2s, v17.2s, #32
        srshr v3.4s, v17.4s, #32
        srshr v3.2d, v17.2d, #64
        sri v3.8b, v17.8b, #8
        sri v3.16b, v17.16b, #8
        sri v3.4h, v17.4h, #16
        sri v3.8h, v17.8h, #16
        sri v3.2s, v17.2s, #32
        sri v3.4s, v17.4s, #32
        sri v3.2d, v17.2d, #64
        xtn v3.8b, v17.8h
        xtn v3.4h, v17.4s
        xtn v3.2s, v17.2d
        trn1 v3.8b, v17.8b, v29.8b
        trn1 v3.16b, v17.16b, v29.16b
        trn1 v3.4h, v17.4h, v29.4h
        trn1 v3.8h, v17.8h, v29.8h
        trn1 v3.2s, v17.2s, v29.2s
        trn1 v3.4s, v17.4s, v29.4s
        trn1 v3.2d, v17.2d, v29.2d
        trn2 v3.8b, v17.8b, v29.8b
        trn2 v3.16b, v17.16b, v29.16b
        trn2 v3.4h, v17.4h, v29.4h
        trn2 v3.8h, v17.8h, v29.8h
        trn2 v3.2s, v17.2s, v29.2s
        trn2 v3.4s, v17.4s, v29.4s
        trn2 v3.2d, v17.2d, v29.2d
        zip1 v3.8b, v17.8b, v29.8b
        zip1 v3.16b, v17.16b, v29.16b
        zip1 v3.4h, v17.4h, v29.4h
        zip1 v3.8h, v17.8h, v29.8h
        zip1 v3.2s, v17.2s, v29.2s
        zip1 v3.4s, v17.4s, v29.4s
        zip1 v3.2d, v17.2d, v29.2d
        zip2 v3.8b, v17.8b, v29.8b
        zip2 v3.16b, v17.16b, v29.16b
        zip2 v3.4h, v17.4h, v29.4h
        zip2 v3.8h, v17.8h, v29.8h
        zip2 v3.2s, v17.2s, v29.2s
        zip2 v3.4s, v17.4s, v29.4s
        zip2 v3.2d, v17.2d, v29.2d
        uzp1 v3.8b, v17.8b, v29.8b
        uzp1 v3.16b, v17.16b, v29.16b
        uzp1 v3.4h, v17.4h, v29.4h
        uzp1 v3.8h, v17.8h, v29.8h
        uzp1 v3.2s, v17.2s, v29.2s
        uzp1 v3.4s, v17.4s, v29.4s
        uzp1 v3.2d, v17.2d, v29.2d
        uzp2 v3.8b, v17.8b, v29.8b
        uzp2 v3.16b, v17.16b, v29.16b
        uzp2 v3.4h, v17.4h, v29.4h
        uzp2 v3.8h, v17.8h, v29.8h
        uzp2 v3.2s, v17.2s, v29.2s
        uzp2 v3.4s, v17.4s, v29.4s
        uzp2 v3.2d, v17.2d, v29.2d
        ext v3.8b, v17.8b, v29.8b, #7
        ext v3.16b, v17.16b, v29.16b, #15
        dup v3.8b, v17.b[15]
        dup v3.16b, v17.b[15]
        dup v3.4h, v17.h[7]
        dup v3.8h, v17.h[7]
        dup v3.2s, v17.s[3]
        dup v3.4s, v17.s[3]
        dup v3.2d, v17.d[1]
        dup v3.8b, w17
        dup v3.16b, w17
        dup v3.4h, w17
        dup v3.8h, w17
        dup v3.2s, w17
        dup v3.4s, w17
        dup v3.2d, x17
        ins v3.b[15], w17
        ins v3.h[7], w17
        ins v3.s[3], w17
        ins v3.d[1], x17
        ins v3.b[15], v17.b[15]
        ins v3.h[7], v17.h[7]
        ins v3.s[3], v17.s[3]
        ins v3.d[1], v17.d[1]
        umov w3, v17.b[15]
        umov w3, v17.h[7]
        umov w3, v17.s[3]
        umov x3, v17.d[1]
        ldr x3, [x17]
        ldr x3, [x17, #32760]
        ldr x3, [x17], #255
        ldr x3, [x17, #255]!
        ldr w3, [x17]
        ldr w3, [x17, #16380]
        ldr w3, [x17], #255
        ldr w3, [x17, #255]!
        ldr q3, [x17]
        ldr q3, [x17, #65520]
        ldr q3, [x17], #255
        ldr q3, [x17, #255]!
        ldr d3, [x17]
        ldr d3, [x17, #32760]
        ldr d3, [x17], #255
        ldr d3, [x17, #255]!
        ldr s3, [x17]
        ldr s3, [x17, #16380]
        ldr s3, [x17], #255
        ldr s3, [x17, #255]!
        str x3, [x17]
        str x3, [x17, #32760]
        str x3, [x17], #255
        str x3, [x17, #255]!
        str w3, [x17]
        str w3, [x17, #16380]
        str w3, [x17], #255
        str w3, [x17, #255]!
        str q3, [x17]
        str q3, [x17, #65520]
        str q3, [x17], #255
        str q3, [x17, #255]!
        str d3, [x17]
        str d3, [x17, #32760]
        str d3, [x17], #255
        str d3, [x17, #255]!
        str s3, [x17]
        str s3, [x17, #16380]
        str s3, [x17], #255
        str s3, [x17, #255]!
        ldur x3, [x17]
        ldur x3, [x17, #255]
        ldur w3, [x17]
        ldur w3, [x17, #255]
        ldur q3, [x17]
        ldur q3, [x17, #255]
        ldur d3, [x17]
        ldur d3, [x17, #255]
        ldur s3, [x17]
        ldur s3, [x17, #255]
        stur x3, [x17]
        stur x3, [x17, #255]
        stur w3, [x17]
        stur w3, [x17, #255]
        stur q3, [x17]
        stur q3, [x17, #255]
        stur d3, [x17]
        stur d3, [x17, #255]
        stur s3, [x17]
        stur s3, [x17, #255]
        ldp x3, x17, [x29]
        ldp x3, x17, [x29, #504]
        ldp x3, x17, [x29], #504
        ldp x3, x17, [x29, #504]!
        ldp d3, d17, [x29]
        ldp d3, d17, [x29, #504]
        ldp d3, d17, [x29], #504
        ldp d3, d17, [x29, #504]!
        ldp q3, q17, [x29]
        ldp q3, q17, [x29, #1008]
        ldp q3, q17, [x29], #1008
        ldp q3, q17, [x29, #1008]!
        stp x3, x17, [x29]
        stp x3, x17, [x29, #504]
        stp x3, x17, [x29], #504
        stp x3, x17, [x29, #504]!
        stp d3, d17, [x29]
        stp d3, d17, [x29, #504]
        stp d3, d17, [x29], #504
        stp d3, d17, [x29, #504]!
        stp q3, q17, [x29]
        stp q3, q17, [x29, #1008]
        stp q3, q17, [x29], #1008
        stp q3, q17, [x29, #1008]!
