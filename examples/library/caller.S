; caller.S: a program outside the seal that tries three codes, and shows on the pins what the library leaves behind:
; P1 the answer, P2 register R14, P3 the flags, P4 how many ticks the call took. None of the codes is right.
;
; Behind each instruction are its cycles, by docs/INSTRUCTIONS.md. With no event of a bench the first instruction runs
; in tick 10, the pins open in tick 25, and the first call is in tick 40. The library begins 4 ticks behind its call,
; and the next call is 27 ticks behind the return.

        .equ    WDTCTL, 0x015C                  ; the watchdog, with its password 5Ah
        .equ    PM5CTL0, 0x0130                 ; bit 0 locks the pins (LOCKLPM5)
        .equ    SYSSNIV, 0x019C
        .equ    P1OUT, 0x0202
        .equ    P2OUT, 0x0203
        .equ    PADIR, 0x0204
        .equ    P3OUT, 0x0222
        .equ    P4OUT, 0x0223
        .equ    PBDIR, 0x0224
        .equ    TA0CTL, 0x0340
        .equ    TA0R, 0x0350

        .section .outside, "ax", @progbits
        .globl  start
start:  mov.b   r14, &P2OUT                     ; 3     what a reset left in R14
        mov.w   #0x2400, r1                     ; 2     the end of SRAM
        mov.w   #0x5A80, &WDTCTL                ; 4     hold the watchdog
        mov.w   #-1, &PADIR                     ; 3     all pins of P1 and P2 are outputs
        mov.w   #-1, &PBDIR                     ; 3     and those of P3 and P4
        bic.w   #1, &PM5CTL0                    ; 4     unlock them
        mov.w   #0x0220, &TA0CTL                ; 4     TA0 counts each tick
        mov.w   #codes, r10                     ; 2
next:   mov.w   @r10+, r12                      ; 2
        mov.w   #0, &TA0R                       ; 3
        call    #check                          ; 4
        mov.b   &TA0R, &P4OUT                   ; 5     the ticks since TA0R was made 0
        mov.b   r2, &P3OUT                      ; 3     MOV has left the flags
        mov.b   r14, &P2OUT                     ; 3
        mov.b   r12, &P1OUT                     ; 3
        cmp.w   #codes_end, r10                 ; 2
        jne     next                            ; 2
        jmp     .                               ; 2

; The NMI, which a violation asks for where the debugger has set SEGIE. It may come amid the library.
nmi:    mov.b   r14, &P2OUT                     ; 3
        mov.w   #0, &SYSSNIV                    ; 3     clears the flag of the violation
        reti                                    ; 5

codes:  .word   0x1000, 0x2600, 0x2500
codes_end:

        .section .vectors, "a", @progbits       ; FFFCh and FFFEh
        .word   nmi, start
