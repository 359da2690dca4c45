# Two turns of a REP.
	.text
	.globl _start
_start:
	movl $buffer,%edi
	movl $2,%ecx
	rep stosl
	hlt
	.bss
buffer:
	.zero 16
