; decimal_sum(first, second): the sum of two numbers of four decimal digits, which C has no operator for. It is called
; from C as   unsigned decimal_sum(unsigned first, unsigned second);
;
; The calling convention of C here:
;   - The first four words of arguments come in R12, R13, R14 and R15, in their order. Further ones are on the stack.
;   - A result of a byte or a word is in R12.
;   - A routine may change R11 to R15 and the flags. It leaves R4 to R10 and SP as it found them: what it needs of
;     them it pushes first, and pops at its end.
;   - CALL pushed the return address, so SP points to it, and RET takes it.

        .section .text.decimal_sum, "ax", @progbits
        .globl  decimal_sum
decimal_sum:
        clrc                            ; DADD adds the carry too
        dadd.w  r13, r12                ; R12 = first + second, digit by digit
        ret
