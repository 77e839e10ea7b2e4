; seal.S: the structure of IP Encapsulation, by which the first boot seals the library, and the two words that lead to
; it. The structure lies in the seal that it gives, so that no access from outside changes it. library.ld says where the
; sections go.

        .equ    FIRST_BORDER, 0x4800            ; borders are multiples of 400h
        .equ    SECOND_BORDER, 0x4C00
        .equ    STRUCTURE, 0x4810               ; a multiple of 16, behind the eight bytes that have no data rights
        .equ    CONTROL, 0x00C0                 ; MPUIPLOCK and MPUIPENA

        .section .structure, "a", @progbits
        .word   CONTROL, SECOND_BORDER / 16, FIRST_BORDER / 16
        .word   ~(CONTROL ^ (SECOND_BORDER / 16) ^ (FIRST_BORDER / 16)) & 0xFFFF

        .section .signature, "a", @progbits     ; at FF88h
        .word   0xAAAA, STRUCTURE / 16
