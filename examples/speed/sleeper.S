; sleeper.S: a processor that is off, and wakes for two instructions every thousand ticks, by CCR0 of TA0.

        .section .code, "ax", @progbits
        .globl  start
start:  mov.w   #0x5A80, &0x015C                ; the watchdog is held
        mov.w   #0x2400, r1
        mov.w   #999, &0x0352                   ; TA0CCR0
        mov.w   #0x0010, &0x0342                ; CCIE of TA0CCTL0
        mov.w   #0x0210, &0x0340                ; TA0CTL: SMCLK, up
        bis.w   #0x0018, sr                     ; GIE and CPUOFF
sleep:  jmp     sleep

woken:  inc.w   &0x1C00
        reti

        .section .ta0, "a", @progbits
        .word   woken
        .section .reset, "a", @progbits
        .word   start
