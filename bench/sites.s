# Sites alone, and the NOPs behind them: each instruction of the loop is one that a monitor does by itself.
	.text
	.globl _start
_start:
	movl $again,%ebx
	movl $back,%edi
again:
	cli
	pushf
	popf
	movl %cr0,%eax
	movl %eax,%cr0
	movl %ds,%ecx
	movl %ecx,%es
	call *%edi
	sti
	jmp *%ebx
back:
	ret
