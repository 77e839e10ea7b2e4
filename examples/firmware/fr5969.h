/* fr5969.h: the registers that the machine has, by docs/MACHINE.md, with the names of their bits. It needs no
   other header. Registers that the machine doesn't have aren't here. */

#ifndef FR5969_H
#define FR5969_H

#define REGISTER_8(address) (*(volatile unsigned char *)(address))
#define REGISTER_16(address) (*(volatile unsigned short *)(address))

/* Interrupts. The vector of number n stands at FF80h + 2n. A routine is written as
       INTERRUPT(PORT1_VECTOR) void press(void) { .. }
   The compiler puts its address into the section __interrupt_vector_47, and fr5969.ld puts that to FFDEh. */
#define INTERRUPT(number) __attribute__((interrupt(number)))
#define PORT4_VECTOR 40     /* FFD0h */
#define PORT3_VECTOR 41     /* FFD2h */
#define PORT2_VECTOR 44     /* FFD8h */
#define PORT1_VECTOR 47     /* FFDEh */
#define TA1_VECTOR 48       /* FFE0h: TA1IV tells which */
#define TA1_CCR0_VECTOR 49  /* FFE2h: its entry clears CCIFG of TA1CCTL0 */
#define DMA_VECTOR 50       /* FFE4h */
#define TA0_VECTOR 52       /* FFE8h: TA0IV tells which */
#define TA0_CCR0_VECTOR 53  /* FFEAh: its entry clears CCIFG of TA0CCTL0 */
#define WDT_VECTOR 57       /* FFF2h: its entry clears WDTIFG */
#define TB0_VECTOR 58       /* FFF4h: TB0IV tells which */
#define TB0_CCR0_VECTOR 59  /* FFF6h: its entry clears CCIFG of TB0CCTL0 */
#define NMI_VECTOR 62       /* FFFCh: SYSSNIV tells which */

/* The status register SR, which is R2. */
#define GIE 0x0008
#define CPUOFF 0x0010
#define OSCOFF 0x0020       /* stops ACLK */
#define SCG0 0x0040
#define SCG1 0x0080         /* stops SMCLK */
#define SET_SR(bits) __asm__ volatile ("bis.w %0, r2" : : "i"(bits) : "memory")
#define CLEAR_SR(bits) __asm__ volatile ("bic.w %0, r2" : : "i"(bits) : "memory")

/* Sleep until an interrupt. Its routine ends in the same sleep, so the statement behind is never reached. */
#define SLEEP_WITH_SMCLK() SET_SR(GIE | CPUOFF)                 /* LPM0: the timers go on with both clocks */
#define SLEEP_WITH_ACLK() SET_SR(GIE | CPUOFF | SCG0 | SCG1)    /* LPM3: with ACLK alone */

/* System. */
#define SFRIE1 REGISTER_16(0x0100)
#define WDTIE 0x0001
#define SFRIFG1 REGISTER_16(0x0102)
#define WDTIFG 0x0001
#define PMMCTL0 REGISTER_16(0x0120)
#define PMMPW 0xA500
#define PMMSWBOR 0x0004
#define PMMSWPOR 0x0008
#define PM5CTL0 REGISTER_16(0x0130)
#define LOCKLPM5 0x0001     /* set by a BOR: the pins are open until it is clear */
#define SYSCTL REGISTER_16(0x0180)
#define SYSSNIV REGISTER_16(0x019C)
#define SYSRSTIV REGISTER_16(0x019E)    /* the cause of the last reset, which a read clears */

/* The watchdog. Each write is a word with the password. */
#define WDTCTL REGISTER_16(0x015C)
#define WDTPW 0x5A00
#define WDTHOLD 0x0080
#define WDTSSEL_SMCLK 0x0000
#define WDTSSEL_ACLK 0x0020
#define WDTTMSEL 0x0010
#define WDTCNTCL 0x0008
#define WDTIS_2_15 0x0004   /* intervals of 2 to the power of 15, 13, 9 and 6 edges */
#define WDTIS_2_13 0x0005
#define WDTIS_2_9 0x0006
#define WDTIS_2_6 0x0007

/* The FRAM controller, and the clock registers, which have no effect. */
#define FRCTL0 REGISTER_16(0x0140)
#define FRCTLPW 0xA500
#define NWAITS(cycles) ((cycles) << 4)  /* 0 to 7 */
#define GCCTL0 REGISTER_16(0x0144)
#define GCCTL1 REGISTER_16(0x0146)
#define CSCTL0 REGISTER_16(0x0160)
#define CSCTL1 REGISTER_16(0x0162)
#define CSCTL2 REGISTER_16(0x0164)
#define CSCTL3 REGISTER_16(0x0166)
#define CSCTL4 REGISTER_16(0x0168)
#define CSCTL5 REGISTER_16(0x016A)
#define CSCTL6 REGISTER_16(0x016C)

/* The ports: by bytes, and two together by words, with the odd-numbered port in bits 7:0. */
#define P1IN REGISTER_8(0x0200)
#define P2IN REGISTER_8(0x0201)
#define P1OUT REGISTER_8(0x0202)
#define P2OUT REGISTER_8(0x0203)
#define P1DIR REGISTER_8(0x0204)
#define P2DIR REGISTER_8(0x0205)
#define P1IV REGISTER_16(0x020E)        /* the number of the pin, which an access clears */
#define P1IES REGISTER_8(0x0218)        /* 0: a rise sets the flag, 1: a fall */
#define P2IES REGISTER_8(0x0219)
#define P1IE REGISTER_8(0x021A)
#define P2IE REGISTER_8(0x021B)
#define P1IFG REGISTER_8(0x021C)
#define P2IFG REGISTER_8(0x021D)
#define P2IV REGISTER_16(0x021E)
#define P3IN REGISTER_8(0x0220)
#define P4IN REGISTER_8(0x0221)
#define P3OUT REGISTER_8(0x0222)
#define P4OUT REGISTER_8(0x0223)
#define P3DIR REGISTER_8(0x0224)
#define P4DIR REGISTER_8(0x0225)
#define P3IV REGISTER_16(0x022E)
#define P3IES REGISTER_8(0x0238)
#define P4IES REGISTER_8(0x0239)
#define P3IE REGISTER_8(0x023A)
#define P4IE REGISTER_8(0x023B)
#define P3IFG REGISTER_8(0x023C)
#define P4IFG REGISTER_8(0x023D)
#define P4IV REGISTER_16(0x023E)
#define PAIN REGISTER_16(0x0200)        /* P1 and P2 */
#define PAOUT REGISTER_16(0x0202)
#define PADIR REGISTER_16(0x0204)
#define PAREN REGISTER_16(0x0206)       /* REN, SEL0, SEL1 and SELC have no effect */
#define PASEL0 REGISTER_16(0x020A)
#define PASEL1 REGISTER_16(0x020C)
#define PASELC REGISTER_16(0x0216)
#define PAIES REGISTER_16(0x0218)
#define PAIE REGISTER_16(0x021A)
#define PAIFG REGISTER_16(0x021C)
#define PBIN REGISTER_16(0x0220)        /* P3 and P4 */
#define PBOUT REGISTER_16(0x0222)
#define PBDIR REGISTER_16(0x0224)
#define PBREN REGISTER_16(0x0226)
#define PBSEL0 REGISTER_16(0x022A)
#define PBSEL1 REGISTER_16(0x022C)
#define PBSELC REGISTER_16(0x0236)
#define PBIES REGISTER_16(0x0238)
#define PBIE REGISTER_16(0x023A)
#define PBIFG REGISTER_16(0x023C)

/* The timers. TA0 and TA1 have CCR0 to CCR2, and TB0 has CCR0 to CCR6. */
#define TA0CTL REGISTER_16(0x0340)
#define TA0CCTL0 REGISTER_16(0x0342)
#define TA0CCTL1 REGISTER_16(0x0344)
#define TA0CCTL2 REGISTER_16(0x0346)
#define TA0R REGISTER_16(0x0350)
#define TA0CCR0 REGISTER_16(0x0352)
#define TA0CCR1 REGISTER_16(0x0354)
#define TA0CCR2 REGISTER_16(0x0356)
#define TA0EX0 REGISTER_16(0x0360)
#define TA0IV REGISTER_16(0x036E)
#define TA1CTL REGISTER_16(0x0380)
#define TA1CCTL0 REGISTER_16(0x0382)
#define TA1CCTL1 REGISTER_16(0x0384)
#define TA1CCTL2 REGISTER_16(0x0386)
#define TA1R REGISTER_16(0x0390)
#define TA1CCR0 REGISTER_16(0x0392)
#define TA1CCR1 REGISTER_16(0x0394)
#define TA1CCR2 REGISTER_16(0x0396)
#define TA1EX0 REGISTER_16(0x03A0)
#define TA1IV REGISTER_16(0x03AE)
#define TB0CTL REGISTER_16(0x03C0)
#define TB0CCTL(n) REGISTER_16(0x03C2 + 2 * (n))    /* n from 0 to 6 */
#define TB0R REGISTER_16(0x03D0)
#define TB0CCR(n) REGISTER_16(0x03D2 + 2 * (n))
#define TB0EX0 REGISTER_16(0x03E0)
#define TB0IV REGISTER_16(0x03EE)
#define TSSEL_ACLK 0x0100   /* bits of CTL: an edge in each 32nd tick */
#define TSSEL_SMCLK 0x0200  /* an edge in each tick */
#define TID_1 0x0000        /* the clock's edges, divided */
#define TID_2 0x0040
#define TID_4 0x0080
#define TID_8 0x00C0
#define TMC_STOP 0x0000
#define TMC_UP 0x0010
#define TMC_CONTINUOUS 0x0020
#define TMC_UP_DOWN 0x0030
#define TCLR 0x0004
#define TIE 0x0002
#define TIFG 0x0001
#define CCIE 0x0010         /* bits of CCTL0 and the others */
#define CCIFG 0x0001

/* DMA. SA and DA are pairs of words: bits 15:0, and bits 19:16 in the word behind. */
#define DMACTL0 REGISTER_16(0x0500)     /* 4:0: trigger of channel 0, 12:8: that of channel 1 */
#define DMACTL1 REGISTER_16(0x0502)     /* 4:0: trigger of channel 2 */
#define DMACTL4 REGISTER_16(0x0508)
#define DMAIV REGISTER_16(0x050E)
#define DMA_CHANNEL_CTL(n) REGISTER_16(0x0510 + 0x10 * (n))     /* n from 0 to 2 */
#define DMA_CHANNEL_SA(n) REGISTER_16(0x0512 + 0x10 * (n))
#define DMA_CHANNEL_SA_HIGH(n) REGISTER_16(0x0514 + 0x10 * (n))
#define DMA_CHANNEL_DA(n) REGISTER_16(0x0516 + 0x10 * (n))
#define DMA_CHANNEL_DA_HIGH(n) REGISTER_16(0x0518 + 0x10 * (n))
#define DMA_CHANNEL_SZ(n) REGISTER_16(0x051A + 0x10 * (n))
#define DMA_DT(mode) ((unsigned)(mode) << 12)     /* 0 to 7 */
#define DMA_DESTINATION_DOWN 0x0800
#define DMA_DESTINATION_UP 0x0C00
#define DMA_SOURCE_DOWN 0x0200
#define DMA_SOURCE_UP 0x0300
#define DMA_DESTINATION_BYTE 0x0080
#define DMA_SOURCE_BYTE 0x0040
#define DMA_LEVEL 0x0020                /* LEVEL and ABORT have no effect */
#define DMA_ENABLE 0x0010
#define DMA_FLAG 0x0008
#define DMA_INTERRUPT_ENABLE 0x0004
#define DMA_ABORT 0x0002
#define DMA_REQUEST 0x0001

/* Memory protection. A border is an address divided by 16. */
#define MPUCTL0 REGISTER_16(0x05A0)
#define MPUPW 0xA500
#define MPUENA 0x0001
#define MPULOCK 0x0002
#define MPUSEGIE 0x0010
#define MPUCTL1 REGISTER_16(0x05A2)
#define MPUSEG1IFG 0x0001
#define MPUSEG2IFG 0x0002
#define MPUSEG3IFG 0x0004
#define MPUSEGIIFG 0x0008
#define MPUSEGIPIFG 0x0010
#define MPUSEGB2 REGISTER_16(0x05A4)
#define MPUSEGB1 REGISTER_16(0x05A6)
#define MPUSAM REGISTER_16(0x05A8)
#define MPU_RIGHTS(segment, bits) ((unsigned)(bits) << (4 * ((segment) - 1)))   /* 1 to 3, and 4 for information FRAM */
#define MPU_READ 0x1
#define MPU_WRITE 0x2
#define MPU_FETCH 0x4
#define MPU_RESET 0x8       /* VS: a violation is a reset */

#endif
