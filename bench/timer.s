# Counts in a loop, which the timer interrupts every 80 steps.
	.bss
ticks:
	.zero 4
	.text
	.globl _start
_start:
	# a count of 10, loaded anew after each edge
	movl $0x40,%edx
	movb $0x34,%al
	outb %al,$0x43
	movb $10,%al
	outb %al,%dx
	movb $0,%al
	outb %al,%dx
	movl $on_timer,%eax
	call take_timer
	sti
count:
	incl %ecx
	addl %ecx,%ebx
	jmp count
on_timer:
	pushl %eax
	incl ticks
	movb $0x20,%al		# the end of the interrupt
	outb %al,$0x20
	popl %eax
	iret
