/* fr5969.ld: where a program's parts go, for ld.lld and for GNU ld. The emulator loads the bytes of each segment
   to its p_paddr, and only into FRAM. So all bytes of the file, those of .data among them, have their load
   address in main FRAM or among the vectors. SRAM is laid out here, and filled by start.S. */

ENTRY(start)

MEMORY
{
    sram    (rwx) : ORIGIN = 0x1C00, LENGTH = 0x0800    /* 1C00h to 23FFh, with the stack at its end */
    fram    (rx)  : ORIGIN = 0x4400, LENGTH = 0xBB80    /* 4400h to FF7Fh, below the signatures */
    vectors (r)   : ORIGIN = 0xFFCE, LENGTH = 0x0032    /* FFCEh to FFFFh */
}

PHDRS
{
    code    PT_LOAD;
    data    PT_LOAD;
    bss     PT_LOAD;
    vectors PT_LOAD;
}

stack_top = 0x2400;         /* the stack grows downward from here */
stack_room = 0x0080;        /* what .data and .bss leave to it at least */

SECTIONS
{
    .text : { KEEP(*(.start)) *(.text .text.*) . = ALIGN(2); } >fram :code
    .rodata : { *(.rodata .rodata.*) . = ALIGN(2); } >fram :code

    .data : ALIGN(2) { data_start = .; *(.data .data.*) . = ALIGN(2); data_end = .; } >sram AT>fram :data
    data_load = LOADADDR(.data);

    .bss (NOLOAD) : ALIGN(2) { bss_start = .; *(.bss .bss.* COMMON) . = ALIGN(2); bss_end = .; } >sram :bss

    /* The vector of number n stands at FF80h + 2n, and a routine has its number by INTERRUPT of fr5969.h. The word at
       FFCEh is no vector: from there on a vector that no routine has is 0, so that an interrupt without a routine is
       a reset with the cause 1Eh, which the trace shows. */
    .vectors   0xFFCE : { SHORT(0) } >vectors :vectors
    .vector_40 0xFFD0 : { KEEP(*(__interrupt_vector_40)) } >vectors :vectors   /* P4 */
    .vector_41 0xFFD2 : { KEEP(*(__interrupt_vector_41)) } >vectors :vectors   /* P3 */
    .vector_44 0xFFD8 : { KEEP(*(__interrupt_vector_44)) } >vectors :vectors   /* P2 */
    .vector_47 0xFFDE : { KEEP(*(__interrupt_vector_47)) } >vectors :vectors   /* P1 */
    .vector_48 0xFFE0 : { KEEP(*(__interrupt_vector_48)) } >vectors :vectors   /* TA1, all but CCTL0 */
    .vector_49 0xFFE2 : { KEEP(*(__interrupt_vector_49)) } >vectors :vectors   /* TA1, CCTL0 */
    .vector_50 0xFFE4 : { KEEP(*(__interrupt_vector_50)) } >vectors :vectors   /* DMA */
    .vector_52 0xFFE8 : { KEEP(*(__interrupt_vector_52)) } >vectors :vectors   /* TA0, all but CCTL0 */
    .vector_53 0xFFEA : { KEEP(*(__interrupt_vector_53)) } >vectors :vectors   /* TA0, CCTL0 */
    .vector_57 0xFFF2 : { KEEP(*(__interrupt_vector_57)) } >vectors :vectors   /* the watchdog as a timer */
    .vector_58 0xFFF4 : { KEEP(*(__interrupt_vector_58)) } >vectors :vectors   /* TB0, all but CCTL0 */
    .vector_59 0xFFF6 : { KEEP(*(__interrupt_vector_59)) } >vectors :vectors   /* TB0, CCTL0 */
    .vector_62 0xFFFC : { KEEP(*(__interrupt_vector_62)) } >vectors :vectors   /* the NMI */
    .vector_63 0xFFFE : { KEEP(*(__interrupt_vector_63)) } >vectors :vectors   /* the reset, by start.S */

    .unknown_vectors : { KEEP(*(__interrupt_vector_*)) } >fram :code

    /DISCARD/ : { *(.comment) *(.note.*) *(.eh_frame) }
}

ASSERT(SIZEOF(.unknown_vectors) == 0, "a routine has the number of a vector that the machine doesn't have")
ASSERT(SIZEOF(.vector_40) <= 2 && SIZEOF(.vector_41) <= 2 && SIZEOF(.vector_44) <= 2 && SIZEOF(.vector_47) <= 2 &&
       SIZEOF(.vector_48) <= 2 && SIZEOF(.vector_49) <= 2 && SIZEOF(.vector_50) <= 2 && SIZEOF(.vector_52) <= 2 &&
       SIZEOF(.vector_53) <= 2 && SIZEOF(.vector_57) <= 2 && SIZEOF(.vector_58) <= 2 && SIZEOF(.vector_59) <= 2 &&
       SIZEOF(.vector_62) <= 2 && SIZEOF(.vector_63) <= 2, "two routines have the number of one vector")
ASSERT(bss_end + stack_room <= stack_top, "SRAM has no room left for the stack")
