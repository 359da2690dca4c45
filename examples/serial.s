# Reads the line status register before and after a byte comes.
	.text
	.globl _start
_start:
	movl $0x3fd,%edx
	inb %dx,%al
	inb %dx,%al
