/* Everything from the first address of RAM on, and a stack below RAM's end: 4 pages of 4096 bytes where the command line
   doesn't say otherwise (-Wl,--defsym=avm_pages=N), as many as the configuration gives. */
ENTRY(_start)
PHDRS
{
    code PT_LOAD FLAGS(5);
    data PT_LOAD FLAGS(6);
}
SECTIONS
{
    PROVIDE(avm_pages = 4);
    avm_stack_top = 0x80000000 + avm_pages * 4096;
    . = 0x80000000;
    .text : { *(.text.start) *(.text .text.*) *(.rodata .rodata.* .srodata .srodata.*) } :code
    .data : ALIGN(16) { *(.data .data.* .sdata .sdata.*) } :data
    .bss : ALIGN(16) { *(.sbss .sbss.* .bss .bss.* COMMON) } :data
    ASSERT(. + 4096 <= avm_stack_top, "no room for a stack of a page: give more pages")
    /DISCARD/ : { *(.comment) *(.riscv.attributes) *(.note.*) *(.eh_frame*) }
}
