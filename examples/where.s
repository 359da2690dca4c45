# Shows what the loader leaves: the size of memory, the first free page and the stack; the words of the page tables by
# which text and data are mapped; and what a read and a write of the data do to its word.
	.data
word:				# at 0x11000000
	.long 0x12345678
	.text
	.globl _start
_start:
	outl %eax,$0x80		# EAX: the size of memory in bytes
	movl %ebx,%eax
	outl %eax,$0x80		# EBX: the physical address of the first free page
	movl %esp,%eax
	outl %eax,$0x80
	movl 0xc0001100,%eax	# the directory's word of 0x10000000
	outl %eax,$0x80
	movl 0xc0014000,%eax	# the word of the text's first page
	outl %eax,$0x80
	movl 0xc0018000,%eax	# the word of the data's first page, before the data is touched
	outl %eax,$0x80
	movl word,%eax
	outl %eax,$0x80
	movl 0xc0018000,%eax	# behind a read
	outl %eax,$0x80
	movl $0x9abcdef0,word
	movl 0xc0018000,%eax	# behind a write
	outl %eax,$0x80
	movl 0xc0101000,%eax	# the same byte of memory by the direct map
	outl %eax,$0x80
	hlt
