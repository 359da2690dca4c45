# Loads two values of CR3 in turn, of two page directories with the same page tables, and reads two words under each.
	.bss
	.p2align 12
dir2:
	.zero 4096
	.text
	.globl _start
_start:
	movl %cr3,%ebp
	movl %ebp,%esi
	addl $0xc0000000,%esi
	movl $dir2,%edi
	movl $1024,%ecx
	cld
	rep movsl
	movl $dir2,%edi
	shrl $10,%edi
	andl $0xffc,%edi
	addl $0xc0018000,%edi
	movl (%edi),%ebx
	andl $0xfffff000,%ebx
again:
	movl %ebx,%cr3
	movl dir2,%eax
	movl dir2+4,%eax
	movl %ebp,%cr3
	movl dir2,%eax
	movl dir2+4,%eax
	jmp again
