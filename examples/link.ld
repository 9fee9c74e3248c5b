/* Two segments to load: from 0x10000 on the file's headers, code and constants, and on the next page data,
   and last what begins as zeros. In the file they stand back to back, which is why data is moved on by a
   whole page: an address and its place in the file are the same modulo 4096. */

ENTRY(_start)

PHDRS
{
    code PT_LOAD FILEHDR PHDRS FLAGS(5);
    data PT_LOAD FLAGS(6);
}

SECTIONS
{
    . = 0x10000 + SIZEOF_HEADERS;
    .text : { *(.text.start) *(.text .text.*) } :code
    .rodata : { *(.rodata .rodata.* .srodata .srodata.*) } :code
    . += 4096;
    .data : { *(.data .data.* .sdata .sdata.*) } :data
    .bss : { *(.bss .bss.* .sbss .sbss.* COMMON) } :data
    /DISCARD/ : { *(.comment) *(.riscv.attributes) *(.note .note.*) *(.eh_frame) }
}
