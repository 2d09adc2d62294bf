/* mps2-an505: code and data in the two memories of the secure side. */
MEMORY
{
    CODE : ORIGIN = 0x10000000, LENGTH = 4M
    DATA : ORIGIN = 0x38000000, LENGTH = 4M
}
ENTRY(reset)
SECTIONS
{
    .vectors : { KEEP(*(.vectors)) } >CODE
    .text : { *(.text*) *(.rodata*) } >CODE
    .ARM.exidx : { *(.ARM.exidx*) } >CODE
    .stack (NOLOAD) : { stack_limit = .; . += 16K; stack_top = .; } >DATA
    .data : { *(.data*) } >DATA
    .bss (NOLOAD) : { *(.bss*) *(COMMON) } >DATA
    end = .; /* of the heap */
}
