/* The last 64 KiB below 4 GiB: what a processor sees of the ROM when it begins. */
OUTPUT_FORMAT("elf32-i386")
OUTPUT_ARCH(i386)
SECTIONS
{
    .settings 0xffff0000 : { *(.settings) }
    .text 0xffff0100 : { *(.text .text.*) *(.rodata .rodata.*) }
    .start 0xffffff00 : { *(.start) }
    .reset 0xfffffff0 : { *(.reset) }
    /DISCARD/ : { *(.comment) *(.note*) *(.eh_frame*) }
}
ENTRY(walk)
