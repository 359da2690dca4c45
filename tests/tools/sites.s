# Each kind of site once, in the order of their numbers. sites.listed has the offsets and bytes, by docs/FORMATS.md.
	.globl first
first:
	cli
	sti
	nop
	sti
	hlt
	hlt
	pushf
	popf
	iret
second:
	movl %cr0,%eax
	movl %eax,%cr3
	lgdt 0x11000010
	lidt (%eax)
	ltr %ax
	invlpg 4(%ecx)
	movl %ds,%ebx
	movl %ecx,%es
	push %ss
	pop %ds
	ljmp $8,$0x10000000
	inb %dx,%al
	outl %eax,$0x80
third:
.L1:
	ret $4
	jmp *%eax
	call *(%ebx)
	nop
