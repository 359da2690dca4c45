# Halted with interrupts off, while the timer has an edge every 16 steps: after its first the others change nothing.
	.text
	.globl _start
_start:
	# a count of 2, loaded anew after each edge
	movl $0x40,%edx
	movb $0x34,%al
	outb %al,$0x43
	movb $2,%al
	outb %al,%dx
	movb $0,%al
	outb %al,%dx
	hlt
