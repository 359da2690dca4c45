# The operand of a site, in a page whose table has a frame beyond a memory of 2,048.
	.text
	.globl _start
_start:
	movl $0x00900003,0xc0001200	# 0x20000000
	lidt 0x20000010
