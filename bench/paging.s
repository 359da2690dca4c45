# Reads from more pages than a buffer of 64 translations holds, gives a page of data another frame and back, with INVLPG,
# and loads CR3.
	.bss
	.p2align 12
first_page:
	.zero 4096
second_page:
	.zero 4096
	.text
	.globl _start
_start:
	movl $0xc0200000,%esi	# all of memory stands from 0xC0000000 on
	movl $96,%ecx
touch:
	movl (%esi),%eax
	addl $4096,%esi
	decl %ecx
	jne touch
	# the entry of second_page in the table of the data, at physical 0x18000
	movl $second_page,%edi
	shrl $10,%edi
	andl $0xffc,%edi
	addl $0xc0018000,%edi
	xorl $0x1000,(%edi)
	invlpg second_page
	movl second_page,%eax
	xorl $0x1000,(%edi)
	invlpg second_page
	movl second_page,%eax
	movl %cr3,%eax
	movl %eax,%cr3
	jmp _start
