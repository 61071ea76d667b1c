/* Where the monitor lies. */
ENTRY(start)
SECTIONS
{
  . = MONITOR_AT;
  .text : { *(.text.start) *(.text*) }
  .rodata : ALIGN(PAGE_BYTES) { *(.rodata*) }
  .data : ALIGN(16) { *(.data*) }
  .bss : ALIGN(PAGE_BYTES)
  {
    bss_start = .;
    *(.bss*) *(COMMON)
    . = ALIGN(PAGE_BYTES);
    bss_end = .;
    . += STACK_BYTES;
    stack_top = .;
    . += STACK_BYTES;
    second_stack_top = .;
  }
}
