# A page fault whose delivery meets another: the IDT isn't mapped.
	.text
	.globl _start
_start:
	lidt gates
	movl 0x20000000,%eax
	.data
gates:
	.word 0x7ff
	.long 0x30000000
