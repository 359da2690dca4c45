# Sends a byte to the diagnostic port, and then the first byte of its own text, which a monitor doesn't let it read.
	.text
	.globl _start
_start:
	movb $0x48,%al
	outb %al,$0x80
	movb _start,%al
	outb %al,$0x80
