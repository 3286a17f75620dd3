/* One section of each kind: the many sections of the program's object are more than the linker for Windows takes. */
SECTIONS {
  .text : { *(.text .text.* .text.unlikely.*) }
  .rdata : { *(.rodata .rodata.* .data.rel.ro .data.rel.ro.*) }
  .data : { *(.data .data.*) }
  .bss : { *(.bss .bss.* COMMON) }
  /DISCARD/ : { *(.comment) *(.eh_frame) *(.note*) *(.llvm_addrsig) }
}
