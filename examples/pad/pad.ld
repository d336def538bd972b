/* The memory of the machine that qemu calls mps2-an500; of another board it is these two lines that change. */
MEMORY
{
    FLASH (rx) : ORIGIN = 0x00000000, LENGTH = 4M
    RAM (rwx)  : ORIGIN = 0x20000000, LENGTH = 4M
}

/* What the stack may take: the deepest call of the library takes less than 4096 bytes. */
stack_bytes = DEFINED(stack_bytes) ? stack_bytes : 16K;

ENTRY(reset)
SECTIONS
{
    .text : {
        KEEP(*(.vectors))
        *(.text*) *(.rodata*)
        . = ALIGN(8);
    } > FLASH
    .ARM.extab : { *(.ARM.extab*) } > FLASH
    .ARM.exidx : { *(.ARM.exidx*) } > FLASH
    /* The stack lies first in RAM: one that is too deep leaves RAM and faults, and writes over nothing. */
    .stack (NOLOAD) : { stack_end = .; . += stack_bytes; . = ALIGN(8); stack_start = .; } > RAM
    .data : { data_start = .; *(.data*) . = ALIGN(8); data_end = .; } > RAM AT> FLASH
    data_kept = LOADADDR(.data);
    flash_start = ORIGIN(FLASH);
    flash_end = data_kept + SIZEOF(.data);
    .bss (NOLOAD) : { bss_start = .; *(.bss*) *(COMMON) . = ALIGN(8); bss_end = .; end = .; } > RAM
}
