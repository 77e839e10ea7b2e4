/* Four software timeouts out of one timer, and the processor asleep between its beats.
   Checked by hand, from the source and llvm-objdump: TA0CTL is written at tick 126. R is 9 with the ninth edge behind
   that, at 128 + 8 * 32 = 384, and then each 320 ticks: beat n is at 64 + 320n. Its entry, three pushes and a mov.b take
   6 + 9 + 3 ticks, so what beat n - 1 decided shows at 82 + 320n. Of the beats 2 to 10 the multiples of 2 toggle P1.0,
   those of 3 P1.1, those of 5 P1.2, and 7 P1.3: P1 counts 0001 0011 0010 0110 0101 1101 1100 1110 1011, from 1042 on. */
#include "fr5969.h"

/* A timeout: how many beats are left, how many come then (0: none, it came once), and which pins it toggles. */
struct timeout {
    unsigned char left, period, pins;
};

static struct timeout timeouts[] = {
    { 2, 2, 0x01 }, /* P1.0: each 2 beats */
    { 3, 3, 0x02 }, /* P1.1: each 3 beats */
    { 5, 5, 0x04 }, /* P1.2: each 5 beats */
    { 7, 0, 0x08 }, /* P1.3: once, after 7 beats */
};

static unsigned char toggles; /* what the next beat toggles, so that all toggles come equally long behind a beat */

INTERRUPT(TA0_CCR0_VECTOR) void beat(void) {
    P1OUT ^= toggles;
    toggles = 0;
    for (struct timeout *timeout = timeouts; timeout != timeouts + 4; timeout++)
        if (timeout->left != 0 && --timeout->left == 0) {
            timeout->left = timeout->period;
            toggles |= timeout->pins;
        }
}

int main(void) {
    P1DIR = 0x0F;
    PM5CTL0 &= ~LOCKLPM5;
    TA0CCR0 = 9; /* R counts 0 to 9: a beat has 10 edges of ACLK, which are 320 ticks */
    TA0CCTL0 = CCIE;
    TA0CTL = TSSEL_ACLK | TMC_UP | TCLR;
    for (;;)
        SLEEP_WITH_ACLK();
}
