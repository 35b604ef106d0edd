/* An STM32F405 (Cortex-M4F), as on qemu's board netduinoplus2: what is constant stays in flash. */
MEMORY {
  FLASH (rx) : ORIGIN = 0x08000000, LENGTH = 1024K
  RAM (rw) : ORIGIN = 0x20000000, LENGTH = 128K
}
STACK = 16K;
ENTRY(reset)
SECTIONS {
  .text : { KEEP(*(.vectors)) *(.text .text.* .rodata .rodata.*) . = ALIGN(8); } > FLASH
  .exidx : { *(.ARM.exidx .ARM.exidx.*) . = ALIGN(8); } > FLASH
  .data : { data_begin = .; *(.data .data.*) . = ALIGN(8); data_end = .; } > RAM AT > FLASH
  data_kept = LOADADDR(.data);
  .bss (NOLOAD) : { bss_begin = .; *(.bss .bss.* COMMON) . = ALIGN(8); bss_end = .; } > RAM
  .stack (NOLOAD) : { stack_begin = .; . += STACK; stack_end = .; } > RAM
  end = .; /* of what is in use: newlib's heap begins here */
}
