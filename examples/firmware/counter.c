/* A count of 32 bits that no power cut loses: a contact on P1.0 changes its level with each turn of a wheel, and each
   change is counted once, in whatever tick power goes. P3 and P4 show the lower word of the count.
   Checked by hand, from the bench and llvm-objdump: the pins open 80 ticks behind the first instruction, and 24 later
   for each slot that is good, or 17 where its count is less than that of the slot before. The contact is read 7 ticks
   behind that, and then each 8. A read at R that finds a change writes low, high and check at R + 38, R + 41, R + 48,
   and shows the count at R + 51; each is 6 earlier where the first slot is the newest. So the pins open at 83, and the
   read at 202 shows 1 at 253. The read at 302 comes to high at 337, where power goes; then the first instruction is at
   441, the pins open at 441 + 104 = 545, and the read at 552 shows 2 at 597. The read at 702 writes check at 750 and
   shows nothing; the pins open at 854 + 121 = 975. Then they open at 1204 + 121 = 1325, and the read at 1332 shows 4 at
   1377. */
#include "fr5969.h"

#define CONTACT 0x01 /* P1.0 */

#ifndef SLOTS
#define SLOTS 2 /* with one slot a cut may lose the count: docs/POWER.md tries it */
#endif

/* A count as it stands in FRAM. The check word says that the three belong together. An update puts a count over the one
   that is less by 2, so that low grows by 2, and high by 0 or 1: where some of the words are new and some are old, they
   don't agree. KEY keeps slots of ones alone, as blank FRAM has them, and of zeros alone from agreeing. */
struct slot {
    volatile unsigned low, high, check; /* check is low + high + KEY */
};

#define KEY 0x5A3C
#define FIRST ((struct slot *)0x1800) /* in information FRAM, of which the image names no byte */
#define LAST (FIRST + (SLOTS - 1))

static int is_good(struct slot *slot) {
    unsigned sum = slot->low + slot->high + KEY;
    return slot->check == sum;
}

static unsigned long count_of(struct slot *slot) {
    return (unsigned long)slot->high << 16 | slot->low;
}

static void save(struct slot *slot, unsigned long count) {
    unsigned low = count, high = count >> 16;
    slot->low = low;
    slot->high = high;
    slot->check = low + high + KEY;
}

int main(void) {
    unsigned long count = 0; /* where no slot is good, nothing was counted yet */
    struct slot *newest = LAST;
    for (struct slot *slot = FIRST; slot <= LAST; slot++)
        if (is_good(slot) && count_of(slot) >= count) {
            newest = slot;
            count = count_of(slot);
        }
    PBOUT = count;
    PBDIR = 0xFFFF;
    PM5CTL0 &= ~LOCKLPM5;
    for (;;)
        if ((P1IN & CONTACT) != (count & CONTACT)) { /* a change that isn't counted, of before a cut or of now */
            newest = newest == FIRST ? LAST : FIRST;
            save(newest, ++count);
            PBOUT = count; /* it is told, now that it stands */
        }
}
