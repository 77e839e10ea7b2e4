; start.S: what runs between a reset and main. It sets the stack, holds the watchdog, copies .data from FRAM to
; SRAM, clears .bss and calls main. The names without a value here come from fr5969.ld. The pins stay locked:
; main unlocks them once they are set.

        .equ    WDTCTL, 0x015C                  ; the watchdog, with its password 5Ah

        .section .start, "ax", @progbits
        .globl  start
start:  mov.w   #stack_top, r1
        mov.w   #0x5A80, &WDTCTL                ; hold it, before loops that may be long

        mov.w   #data_load, r12                 ; .data, by words
        mov.w   #data_start, r13
1:      cmp.w   #data_end, r13
        jhs     2f
        mov.w   @r12+, r14
        mov.w   r14, 0(r13)
        incd.w  r13
        jmp     1b

2:      mov.w   #bss_start, r13                 ; .bss, by words
3:      cmp.w   #bss_end, r13
        jhs     4f
        clr.w   0(r13)
        incd.w  r13
        jmp     3b

4:      call    #main
5:      jmp     5b                              ; where main returns

        .section __interrupt_vector_63, "ax", @progbits
        .word   start                           ; the reset vector, at FFFEh
