/* A checksum over a table, shown on two ports: one bit that falls over is seen.
   Checked by other means, without the loop of this program: of bytes b(0) to b(11) the lower sum is that of all b(i)
   modulo 255, and the higher one that of all (12 - i) * b(i) modulo 255, which Python computes from the bytes below as
   4CCEh, and with byte 5 as 7Ch as BCDEh. P4 shows 01001100 and 10111100, P3 11001110 and 11011110. */
#include "fr5969.h"

/* The table stands in .data: its bytes are in FRAM, and start.S copies them to SRAM. */
static unsigned char table[] = { 0x43, 0x61, 0x70, 0x73, 0x75, 0x6C, 0x65, 0x00, 0xFF, 0x80, 0x7F, 0xFE };

/* Fletcher-16: two sums modulo 255, without a division and without a multiplication. */
__attribute__((noinline)) static unsigned fletcher(const unsigned char *bytes, unsigned count) {
    unsigned low = 0, high = 0;
    while (count-- != 0) {
        low += *bytes++;
        if (low >= 255)
            low -= 255;
        high += low;
        if (high >= 255)
            high -= 255;
    }
    return high << 8 | low;
}

int main(void) {
    PBDIR = 0xFFFF; /* the lower sum on P3, the higher one on P4 */
    PM5CTL0 &= ~LOCKLPM5;
    PBOUT = fletcher(table, sizeof table);
    table[5] ^= 0x10; /* one bit falls over */
    PBOUT = fletcher(table, sizeof table);
    PBOUT = 0; /* done */
    return 0;
}
