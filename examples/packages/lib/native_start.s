# Where a package begins on the host: main, and then stop.
	.text
	.globl _start
_start:
	xorl %ebp, %ebp
	andl $-16, %esp
	call main
	pushl %eax
	call stop
