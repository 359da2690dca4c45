# A range whose second page has a frame beyond a memory of 2,048.
	.text
	.globl _start
_start:
	movl $0x00700003,0xc0001200	# 0x20000000: a table in frame 0x700
	movl $0x00701003,0xc0700000
	movl $0x00800003,0xc0700004
	movl 0x20000ffe,%eax
