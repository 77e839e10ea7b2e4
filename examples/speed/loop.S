; loop.S: thirteen instructions that mix words in SRAM, without end. It never sleeps.

        .section .code, "ax", @progbits
        .globl  start
start:  mov.w   #0x5A80, &0x015C                ; the watchdog is held
        mov.w   #0x1C00, r4
        mov.w   #0x1C20, r5
        mov.w   #0x1234, r6
        mov.w   r6, r7
round:  mov.w   @r4, r8
        add.w   r6, r8
        xor.w   r7, r8
        rra.w   r8
        mov.w   r8, 2(r4)
        add.w   @r5, r6
        addc.w  #7, r7
        swpb    r6
        bis.w   r8, r6
        mov.w   r6, 0(r5)
        and.w   #0x7FFF, r7
        cmp.w   r6, r7
        jmp     round

        .section .reset, "a", @progbits
        .word   start
