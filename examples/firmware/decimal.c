/* A routine in assembly, called from C: it adds decimal numbers, for which C has no operator.
   Checked by other means: 2468 times 1 to 5, modulo 10000, is 2468, 4936, 7404, 9872 and 2340 by Python. Each digit is
   four pins, so P4 and P3 show 0010 0100 0110 1000 first. One round takes 19 ticks by llvm-objdump (mov 2, call 4, clrc
   1, dadd 1, ret 4, mov 3, add 1, tst 1, jne 2), which is the distance of the PIN lines. */
#include "fr5969.h"

/* In decimal_sum.S: the sum of two numbers of four decimal digits each, without its carry. */
unsigned decimal_sum(unsigned first, unsigned second);

int main(void) {
    unsigned total = 0x0000;
    PBDIR = 0xFFFF; /* the lower two digits on P3, the higher two on P4 */
    PM5CTL0 &= ~LOCKLPM5;
    for (unsigned count = 0; count != 5; count++) {
        total = decimal_sum(total, 0x2468);
        PBOUT = total;
    }
    return 0;
}
