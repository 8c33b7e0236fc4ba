/* What std's objects carry for link-time optimization is left out: other tools than rustc's may fail to read it. The
 * tables by which stacks are unwound stay, though nothing names them. */
SECTIONS
{
  .eh_frame : { KEEP(*(.eh_frame)) }
  /DISCARD/ : { *(.llvmbc) *(.llvmcmd) }
}
