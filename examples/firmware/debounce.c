/* A button that bounces, and still toggles the LED once for each press.
   Checked by hand, from the bench and llvm-objdump: the press of tick 1000 enters rise at 1000 to 1005, and TA0CTL is
   written at 1009. ACLK has its edges at multiples of 32, so R is 10 with the tenth behind that, at 1024 + 9 * 32 =
   1312. The entry takes 6 ticks, and clr, bit.b and jeq of rest 3 + 3 + 2: P2.0 rises at 1326. For the press of 3000
   these are 3009, 3040 + 9 * 32 = 3328 and 3342. The rises at 300, 1045, 1105 and 2025 show nothing. */
#include "fr5969.h"

#define BUTTON 0x08 /* P1.3 */
#define LED 0x01    /* P2.0 */
#define WAIT 10     /* edges of ACLK, which come in each 32nd tick */

/* A rise of the button: leave its bounces alone, and look at it again when the timer ends. */
INTERRUPT(PORT1_VECTOR) void rise(void) {
    P1IE = 0;
    TA0CTL = TSSEL_ACLK | TMC_UP | TCLR;
}

/* The button had time to come to rest: it is pressed where it is still high. */
INTERRUPT(TA0_CCR0_VECTOR) void rest(void) {
    TA0CTL = TMC_STOP;
    if (P1IN & BUTTON)
        P2OUT ^= LED;
    P1IFG = 0;
    P1IE = BUTTON;
}

int main(void) {
    P2DIR = LED;
    PM5CTL0 &= ~LOCKLPM5;
    TA0CCR0 = WAIT;
    TA0CCTL0 = CCIE;
    P1IE = BUTTON;
    for (;;)
        SLEEP_WITH_ACLK();
}
