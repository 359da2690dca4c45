# Sends one byte by the serial port.
	.text
	.globl _start
_start:
	movl $0x3f8,%edx	# the port's data register
	movb $0x48,%al		# 'H'
	outb %al,%dx
	hlt
