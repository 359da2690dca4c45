# A value of CR4 that isn't supported.
	.text
	.globl _start
_start:
	movl $1,%eax
	movl %eax,%cr4
