// One spelling of each row of the table of Armv7E-M, in its order.
        add r3, r11, r12
        add r3, r11, r12, lsl #31
        add r3, r11, r12, lsr #32
        add r3, r11, r12, asr #32
        add r3, r11, r12, ror #31
        add r3, r11
        add r3, r11, #4095
        add r3, #4095
        sub r3, r11, r12
        sub r3, r11, r12, lsl #31
        sub r3, r11, r12, lsr #32
        sub r3, r11, r12, asr #32
        sub r3, r11, r12, ror #31
        sub r3, r11
        sub r3, r11, #4095
        sub r3, #4095
        adds r3, r11, r12
        adds r3, r11, r12, lsl #31
        adds r3, r11, r12, lsr #32
        adds r3, r11, r12, asr #32
        adds r3, r11, r12, ror #31
        adds r3, r11
        adds r3, r11, #255
        adds r3, #255
        subs r3, r11, r12
        subs r3, r11, r12, lsl #31
        subs r3, r11, r12, lsr #32
        subs r3, r11, r12, asr #32
        subs r3, r11, r12, ror #31
        subs r3, r11
        subs r3, r11, #255
        subs r3, #255
        adc r3, r11, r12
        adc r3, r11, r12, lsl #31
        adc r3, r11, r12, lsr #32
        adc r3, r11, r12, asr #32
        adc r3, r11, r12, ror #31
        adc r3, r11
        sbc r3, r11, r12
        sbc r3, r11, r12, lsl #31
        sbc r3, r11, r12, lsr #32
        sbc r3, r11, r12, asr #32
        sbc r3, r11, r12, ror #31
        sbc r3, r11
        adcs r3, r11, r12
        adcs r3, r11, r12, lsl #31
        adcs r3, r11, r12, lsr #32
        adcs r3, r11, r12, asr #32
        adcs r3, r11, r12, ror #31
        adcs r3, r11
        sbcs r3, r11, r12
        sbcs r3, r11, r12, lsl #31
        sbcs r3, r11, r12, lsr #32
        sbcs r3, r11, r12, asr #32
        sbcs r3, r11, r12, ror #31
        sbcs r3, r11
        and r3, r11, r12
        and r3, r11, r12, lsl #31
        and r3, r11, r12, lsr #32
        and r3, r11, r12, asr #32
        and r3, r11, r12, ror #31
        and r3, r11
        and r3, r11, #255
        and r3, #255
        orr r3, r11, r12
        orr r3, r11, r12, lsl #31
        orr r3, r11, r12, lsr #32
        orr r3, r11, r12, asr #32
        orr r3, r11, r12, ror #31
        orr r3, r11
        orr r3, r11, #255
        orr r3, #255
        eor r3, r11, r12
        eor r3, r11, r12, lsl #31
        eor r3, r11, r12, lsr #32
        eor r3, r11, r12, asr #32
        eor r3, r11, r12, ror #31
        eor r3, r11
        eor r3, r11, #255
        eor r3, #255
        bic r3, r11, r12
        bic r3, r11, r12, lsl #31
        bic r3, r11, r12, lsr #32
        bic r3, r11, r12, asr #32
        bic r3, r11, r12, ror #31
        bic r3, r11
        bic r3, r11, #255
        bic r3, #255
        mov r3, r11
        movw r3, #65535
        mov r3, #65535
        movt r3, #65535
        lsl r3, r11, #31
        lsl r3, #31
        lsr r3, r11, #32
        lsr r3, #32
        asr r3, r11, #32
        asr r3, #32
        ror r3, r11, #31
        ror r3, #31
        ubfx r3, r11, #31, #1
        sbfx r3, r11, #31, #1
        uxth r3, r11
        sxth r3, r11
        mul r3, r11, r12
        mla r3, r11, r12, lr
        mls r3, r11, r12, lr
        smull r3, r11, r12, lr
        umull r3, r11, r12, lr
        smlal r3, r11, r12, lr
        umlal r3, r11, r12, lr
        umaal r3, r11, r12, lr
        smulbb r3, r11, r12
        smulbt r3, r11, r12
        smultb r3, r11, r12
        smultt r3, r11, r12
        smlabb r3, r11, r12, lr
        smlabt r3, r11, r12, lr
        smlatb r3, r11, r12, lr
        smlatt r3, r11, r12, lr
        smulwb r3, r11, r12
        smulwt r3, r11, r12
        smlawb r3, r11, r12, lr
        smlawt r3, r11, r12, lr
        smuad r3, r11, r12
        smuadx r3, r11, r12
        smlad r3, r11, r12, lr
        smladx r3, r11, r12, lr
        smmulr r3, r11, r12
        pkhbt r3, r11, r12
        pkhbt r3, r11, r12, lsl #31
        pkhtb r3, r11, r12, asr #32
        uadd16 r3, r11, r12
        sadd16 r3, r11, r12
        usub16 r3, r11, r12
        ssub16 r3, r11, r12
        vmov s31, r3
        vmov r3, s31
        ldr r3, [lr]
        ldr r3, [lr, #4095]
        ldr r3, [lr], #255
        ldr r3, [lr, #255]!
        ldrh r3, [lr]
        ldrh r3, [lr, #4095]
        ldrh r3, [lr], #255
        ldrh r3, [lr, #255]!
        ldrsh r3, [lr]
        ldrsh r3, [lr, #4095]
        ldrsh r3, [lr], #255
        ldrsh r3, [lr, #255]!
        ldrb r3, [lr]
        ldrb r3, [lr, #4095]
        ldrb r3, [lr], #255
        ldrb r3, [lr, #255]!
        str r3, [lr]
        str r3, [lr, #4095]
        str r3, [lr], #255
        str r3, [lr, #255]!
        strh r3, [lr]
        strh r3, [lr, #4095]
        strh r3, [lr], #255
        strh r3, [lr, #255]!
        strb r3, [lr]
        strb r3, [lr, #4095]
        strb r3, [lr], #255
        strb r3, [lr, #255]!
        ldrd r3, r11, [lr]
        ldrd r3, r11, [lr, #1020]
        ldrd r3, r11, [lr], #1020
        ldrd r3, r11, [lr, #1020]!
        strd r3, r11, [lr]
        strd r3, r11, [lr, #1020]
        strd r3, r11, [lr], #1020
        strd r3, r11, [lr, #1020]!
