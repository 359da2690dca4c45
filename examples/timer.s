# Lets the timer interrupt the NOPs of a PUSHF's padding, shows where it did, and goes on after them.
	.text
	.globl _start
_start:
	movl $on_timer,%eax
	call take_timer
	# a count of 2, so an edge after 16 steps
	movl $0x40,%edx
	movb $0x34,%al
	outb %al,$0x43
	movb $2,%al
	outb %al,%dx
	sti
	movb $0,%al
	outb %al,%dx
	nop
	nop
	nop
	nop
	nop
	nop
	nop
	nop
	pushf
	movb $0x55,%al
	outb %al,$0x80
rest:
	jmp rest
on_timer:
	popl %eax		# the saved EIP
	outl %eax,$0x80
	pushl %eax
	iret
