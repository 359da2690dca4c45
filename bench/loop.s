# Adds, stores and loads a number of memory, counts down and jumps back.
	.data
sum:
	.long 0
	.text
	.globl _start
_start:
	movl $1,%ecx
	movl $0x40000000,%edx
again:
	addl %ecx,%eax
	movl %eax,sum
	movl sum,%ebx
	decl %edx
	jne again
	hlt
