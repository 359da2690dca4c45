# A page of 4 MB: it is read and written beside the direct map of the same memory, its word in the directory shows the
# flags that a walk sets, and a word with a reserved bit ends the run.
	.text
	.globl _start
_start:
	movl $0x12345678,0xc0400010
	movl $0x10,%eax
	movl %eax,%cr4		# PSE
	movl $0x00400083,0xc0001400	# 0x40000000: the 4 MB from 0x400000, present, writable
	movl 0x40000010,%eax
	outl %eax,$0x80
	movl $0x89abcdef,0x403ffffc
	movl 0xc07ffffc,%eax	# the same place by the direct map
	outl %eax,$0x80
	movl 0xc0001400,%eax	# with the accessed and the dirty flag
	outl %eax,$0x80
	movl $0x00402083,0xc0001400	# bit 13 is reserved
	invlpg 0x40000000
	movl 0x40000010,%eax
	hlt
