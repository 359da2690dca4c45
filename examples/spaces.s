# Two address spaces: a second page directory, copied from the first but for one word. The same address is read in the
# first space, in the second, and in the first again.
	.text
	.globl _start
_start:
	# Five free frames, by the direct map: the second directory, a page table for each space, and a frame for each.
	leal 0xc0000000(%ebx),%ebp
	movl $0xc0001000,%esi
	movl %ebp,%edi
	movl $1024,%ecx
	rep movsl		# the first directory's words; each turn is a step
	leal 0x1003(%ebx),%eax
	movl %eax,0xc0001400	# the word of 0x40000000 in the first directory
	leal 0x2003(%ebx),%eax
	movl %eax,0x400(%ebp)	# and in the second
	leal 0x3003(%ebx),%eax
	movl %eax,0x1014(%ebp)	# the word of 0x40005000 in the first space's table
	leal 0x4003(%ebx),%eax
	movl %eax,0x2014(%ebp)	# and in the second's
	movl $0x11111111,0x3000(%ebp)
	movl $0x22222222,0x4000(%ebp)
	movl 0x40005000,%eax
	outl %eax,$0x80
	movl %ebx,%cr3		# the second space
	movl 0x40005000,%eax
	outl %eax,$0x80
	movl $0x1000,%eax
	movl %eax,%cr3		# the first again
	movl 0x40005000,%eax
	outl %eax,$0x80
	hlt
