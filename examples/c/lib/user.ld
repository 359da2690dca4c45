/* A program of level 3, all of it from 0x40000000 on, where the kernel maps it and enters it. So the text of user_start.o comes first:
   GNU ld's own order has .text.unlikely, GCC's cold functions, before it. */
ENTRY(_start)
SECTIONS
{
    . = 0x40000000;
    .text : { *user_start.o(.text) *(.text .text.*) }
    .data : { *(.rodata .rodata.*) *(.data .data.*) }
    .bss : { *(.bss .bss.*) *(COMMON) }
    memory_end = .;
    /DISCARD/ : { *(.comment .note .note.*) }
}
