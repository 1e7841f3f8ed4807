/* The emulator's board mps2-an385: code and constants from place 0, memory from 0x20000000. */
SECTIONS {
    . = 0;
    .text : { KEEP(*(.vectors)) *(.text*) *(.rodata*) *(.ARM.*) }
    . = 0x20000000;
    .data : { *(.data*) *(.bss*) *(COMMON) }
    . = ALIGN(8);
    stack_low = .;
    . = . + 8192;
    stack_top = .;
}
