; mended.S: the same routine as in leaky.S. Where the answer is the same, its release list under the benches here is the
; same with either key. Its rules:
;   - What comes of the key goes to the seal alone, and to no register. So an NMI or a reset amid the routine finds none
;     of it there.
;   - The one instruction that sets flags by the key is XOR, and bit 15 of the key is 0. So Z is the answer, C is not Z,
;     N is bit 15 of the code, and V is 0.
;   - No jump depends on the key, so each call leaves 12 ticks behind its first instruction.

        .section .sealed, "ax", @progbits
        .globl  check
check:  mov.w   &key, &copy                     ; 5
        xor.w   r12, &copy                      ; 4     0 where all digits are right
        mov.w   r2, r12                         ; 1
        and.w   #2, r12                         ; 1     Z
        rra.w   r12                             ; 1     1 or 0
        ret                                     ; 4     the flags of RRA tell the answer, and nothing else

        .section .secret, "aw", @progbits
key:    .word   KEY                             ; four digits, of which the first is 7 or less
copy:   .word   0
