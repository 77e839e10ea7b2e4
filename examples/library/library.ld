/* library.ld: a program outside and a library in the seal, for ld.lld and for GNU ld. All bytes are in FRAM, since
   nothing else is loaded. The sections .structure and .signature are those of seal.S. */

ENTRY(start)

PHDRS
{
    outside     PT_LOAD;
    sealed      PT_LOAD;
    signature   PT_LOAD;
    vectors     PT_LOAD;
}

SECTIONS
{
    .outside    0x4400 : { *(.outside) } :outside

    /* The first eight bytes of the seal have no data rights, so nothing stands there. */
    .structure  0x4810 : { KEEP(*(.structure)) } :sealed
    .sealed     0x4820 : { *(.sealed) } :sealed
    .secret     0x4900 : { *(.secret) } :sealed

    .signature  0xFF88 : { KEEP(*(.signature)) } :signature
    .vectors    0xFFFC : { KEEP(*(.vectors)) } :vectors

    /DISCARD/ : { *(.text) *(.data) *(.bss) *(.comment) *(.note.*) }
}

ASSERT(ADDR(.outside) + SIZEOF(.outside) <= 0x4800, "the program outside reaches into the seal")
ASSERT(SIZEOF(.structure) == 8, "the structure has four words")
ASSERT(ADDR(.secret) + SIZEOF(.secret) <= 0x4C00, "the library reaches out of the seal")
