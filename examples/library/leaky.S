; leaky.S: check(code): whether the four digits of a code are those of the key. The code comes in R12, and the answer
; goes there, 1 or 0. It is written as one would without a thought of the seal, and gives the key away in three ways:
; by the tick of the way out, by the flags, and by R14. docs/ISOLATION.md tells them from its release list.
;
; A code whose first two digits are wrong leaves 8 ticks behind the first instruction, one whose first two are right 15.

        .section .sealed, "ax", @progbits
        .globl  check
check:  swpb    r12                             ; 1
        mov.b   &key+1, r14                     ; 3     the first two digits
        cmp.b   r14, r12                        ; 1
        jne     no                              ; 2
        swpb    r12                             ; 1
        mov.b   &key, r14                       ; 3     the last two
        cmp.b   r14, r12                        ; 1
        jne     no                              ; 2
        mov.w   #1, r12                         ; 1
        ret                                     ; 4
no:     mov.w   #0, r12                         ; 1
        ret                                     ; 4

        .section .secret, "aw", @progbits
key:    .word   KEY
