; checksum.S: Fletcher's two sums modulo 255 over twelve bytes in FRAM, again and again.

        .section .code, "ax", @progbits
        .globl  start
start:  mov.w   #0x5A80, &0x015C                ; the watchdog is held
round:  mov.w   #table, r4
        mov.w   #12, r7                         ; bytes left
        clr.w   r5                              ; the lower sum
        clr.w   r6                              ; the higher one
next:   mov.b   @r4+, r8
        add.w   r8, r5
        cmp.w   #255, r5
        jlo     lower
        sub.w   #255, r5
lower:  add.w   r5, r6
        cmp.w   #255, r6
        jlo     higher
        sub.w   #255, r6
higher: dec.w   r7
        jnz     next
        mov.w   r6, &0x1C00
        jmp     round

table:  .byte   0x43, 0x61, 0x70, 0x73, 0x75, 0x6C, 0x65, 0x00, 0xFF, 0x80, 0x7F, 0xFE

        .section .reset, "a", @progbits
        .word   start
