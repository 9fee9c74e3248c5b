/* Two segments to load, as in ../link.ld: from 0x10000 on the file's headers, code, constants and the tables of what
   is called before and behind main, and on the next page data, of which the thread's own variables are the first,
   and last what begins as zeros. All lies in one run of memory, and the break begins behind it. */

ENTRY(_start)

PHDRS
{
    code PT_LOAD FILEHDR PHDRS FLAGS(5);
    data PT_LOAD FLAGS(6);
    thread PT_TLS FLAGS(4);
}

SECTIONS
{
    . = 0x10000 + SIZEOF_HEADERS;
    .text : { KEEP(*(.text.start)) *(.text .text.*) } :code
    .rodata : { *(.rodata .rodata.* .srodata .srodata.*) } :code

    /* What __libc_init_array calls, and what exit calls; the linker would leave out what nothing names. */
    .preinit_array : {
        PROVIDE_HIDDEN(__preinit_array_start = .);
        KEEP(*(.preinit_array))
        PROVIDE_HIDDEN(__preinit_array_end = .);
    } :code
    .init_array : {
        PROVIDE_HIDDEN(__init_array_start = .);
        KEEP(*(SORT_BY_INIT_PRIORITY(.init_array.*)))
        KEEP(*(.init_array))
        PROVIDE_HIDDEN(__init_array_end = .);
    } :code
    .fini_array : {
        PROVIDE_HIDDEN(__fini_array_start = .);
        KEEP(*(SORT_BY_INIT_PRIORITY(.fini_array.*)))
        KEEP(*(.fini_array))
        PROVIDE_HIDDEN(__fini_array_end = .);
    } :code

    /* There is one thread, so its variables are used where they are loaded. Zeros of a thread take no room in the
       linker's reckoning; the line behind them gives them room. */
    . = ALIGN(64) + 4096;
    .tdata : { PROVIDE_HIDDEN(__tls_base = .); *(.tdata .tdata.*) } :data :thread
    .tbss : { *(.tbss .tbss.* .tcommon) } :data :thread
    . = ADDR(.tbss) + SIZEOF(.tbss);

    .data : {
        *(.data .data.*)
        PROVIDE(__global_pointer$ = . + 0x800);
        *(.sdata .sdata.*)
    } :data
    .bss : { *(.sbss .sbss.* .bss .bss.* COMMON) } :data
    /DISCARD/ : { *(.comment) *(.riscv.attributes) *(.note .note.*) *(.eh_frame) }
}
