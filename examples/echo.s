# Sends back each byte that the serial port receives, by its interrupt, and waits halted in between.
	.text
	.globl _start
_start:
	movw $0x8e00,%cx
	movl $on_serial,%eax
	movl $idt+0x120,%edi	# vector 0x24: line 4 behind the base 0x20
	call set_gate
	lidt idt_register
	movb $0x11,%al		# ICW1 to ICW4 of the master
	outb %al,$0x20
	movb $0x20,%al
	outb %al,$0x21
	movb $4,%al
	outb %al,$0x21
	movb $1,%al
	outb %al,$0x21
	movb $0xef,%al		# of its lines only the serial port's is open
	outb %al,$0x21
	movl $0x3f9,%edx	# the receiver's interrupt
	movb $1,%al
	outb %al,%dx
rest:
	sti
	hlt
	jmp rest
on_serial:
	movl $0x3f8,%edx
	inb %dx,%al
	outb %al,%dx
	movb $0x20,%al		# the end of the interrupt
	outb %al,$0x20
	iret
