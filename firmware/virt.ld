/* Memory of qemu's board 'virt', which starts at the first byte of RAM. */
OUTPUT_ARCH(riscv)
ENTRY(_start)

MEMORY { ram (rwx) : ORIGIN = 0x80000000, LENGTH = 16M }
PHDRS { code PT_LOAD FLAGS(5); data PT_LOAD FLAGS(6); }

STACK_LENGTH = 64K;

SECTIONS
{
    .text : { KEEP(*(.text.start)) *(.text .text.*) } > ram : code
    .rodata : { *(.rodata .rodata.* .srodata .srodata.*) } > ram : code
    .data : ALIGN(4096) {
        *(.data .data.*)
        __global_pointer$ = . + 0x800;
        *(.sdata .sdata.*)
    } > ram : data
    .bss (NOLOAD) : ALIGN(16) {
        bss_start = .;
        *(.sbss .sbss.* .bss .bss.* COMMON)
        . = ALIGN(16);
        bss_end = .;
    } > ram : data
    .stack (NOLOAD) : ALIGN(16) {
        stack_bottom = .;
        . += STACK_LENGTH;
        stack_top = .;
    } > ram : data
    /DISCARD/ : { *(.comment .eh_frame .note.* .riscv.attributes) }
}
