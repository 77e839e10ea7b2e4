/* A traffic light that turns for walkers who ask for it: a table of states, on two ports.
   Checked by hand, from the bench and llvm-objdump: TA0CTL is written at tick 74, so the first beat is at 96 + 8 * 32 =
   352, and beat n at 32 + 320n. P1 changes 53 ticks behind the beat that leaves GO, 49 where GO was over its three beats
   already, and 48 behind the others, which don't look at the request. GO begins at the beats 0, 7 and 14 and has at
   least three beats, so SLOW comes at the beats 3, 10 and 18 (1045, 3285, 5841), WALKING one later (1360, 3600, 6160),
   READY two behind that (2000, 4240, 6800), and GO one behind that (2320, 4560, 7120). */
#include "fr5969.h"

#define RED 0x01     /* P1.0 */
#define AMBER 0x02   /* P1.1 */
#define GREEN 0x04   /* P1.2 */
#define WALK 0x08    /* P1.3, for those on foot */
#define REQUEST 0x01 /* P2.0 */

enum { GO, SLOW, WALKING, READY };

/* What a state shows, how many beats it lasts at least, and what comes behind it. The next one is a pointer and no
   index: an index would need a multiplication by the size of a state. */
static const struct state {
    unsigned char lamps, beats;
    const struct state *next;
} states[] = {
    [GO] = { GREEN, 3, &states[SLOW] }, /* goes on until there is a request */
    [SLOW] = { AMBER, 1, &states[WALKING] },
    [WALKING] = { RED | WALK, 2, &states[READY] },
    [READY] = { RED | AMBER, 1, &states[GO] },
};

static const struct state *now = &states[GO];
static unsigned char beats;

INTERRUPT(TA0_CCR0_VECTOR) void beat(void) {
    if (beats != now->beats)
        beats++;
    if (beats != now->beats || (now == &states[GO] && !(P2IFG & REQUEST)))
        return;
    now = now->next;
    beats = 0;
    P1OUT = now->lamps;
    if (now == &states[WALKING])
        P2IFG = 0; /* the request is served */
}

int main(void) {
    P1OUT = now->lamps;
    P1DIR = RED | AMBER | GREEN | WALK;
    PM5CTL0 &= ~LOCKLPM5; /* from here on a rise of P2.0 sets its flag, which keeps the request */
    TA0CCR0 = 9;          /* a beat has 10 edges of ACLK, which are 320 ticks */
    TA0CCTL0 = CCIE;
    TA0CTL = TSSEL_ACLK | TMC_UP | TCLR;
    for (;;)
        SLEEP_WITH_ACLK();
}
