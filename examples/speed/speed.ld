/* speed.ld: code in main FRAM, and the two vectors, for ld.lld and for GNU ld. */

ENTRY(start)

PHDRS
{
    code    PT_LOAD;
    ta0     PT_LOAD;
    reset   PT_LOAD;
}

SECTIONS
{
    .code   0x4400 : { *(.code) } :code
    .ta0    0xFFEA : { KEEP(*(.ta0)) } :ta0
    .reset  0xFFFE : { KEEP(*(.reset)) } :reset

    /DISCARD/ : { *(.text) *(.data) *(.bss) *(.comment) *(.note.*) }
}
