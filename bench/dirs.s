# Loops over the first pages of 480 page tables, which lie from 16 MB on, writes into one and loads CR3. It wants 16,384 frames.
	.text
	.globl _start
_start:
	movl %cr3,%ebp
	addl $0xc0000000,%ebp
	movl $480,%ecx
	movl $0x01000000,%eax
	leal 1024(%ebp),%edi
make:
	leal 7(%eax),%edx
	movl %edx,(%edi)
	movl $0x00700007,0xc0000000(%eax)
	addl $4096,%eax
	addl $4,%edi
	decl %ecx
	jne make
again:
	movl $480,%ecx
	movl $0x40000000,%esi
touch:
	movl (%esi),%eax
	addl $0x400000,%esi
	decl %ecx
	jne touch
	movl $0x00700007,0xc1000000
	movl %cr3,%eax
	movl %eax,%cr3
	jmp again
