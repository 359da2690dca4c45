# Takes two faults and a call by handlers of its own. That of a division by 0 shows where the instruction stands, and goes
# on after it; that of a page fault shows the error code and CR2, and goes on after it; that of INT shows where it goes on.
	.text
	.globl _start
_start:
	movw $0x8e00,%cx	# gates of level 0 that clear IF
	movl $on_divide,%eax
	movl $idt,%edi		# vector 0
	call set_gate
	movl $on_page_fault,%eax
	movl $idt+0x70,%edi	# vector 14
	call set_gate
	movl $on_call,%eax
	movl $idt+0x400,%edi	# vector 0x80
	call set_gate
	lidt idt_register
	xorl %ecx,%ecx
	xorl %edx,%edx
	movl $1,%eax
	divl %ecx		# #DE
	movl 0x20000000,%eax	# #PF
	int $0x80
	hlt
on_divide:
	movl (%esp),%eax	# the saved EIP: of the division itself
	outl %eax,$0x80
	addl $2,(%esp)		# it has two bytes
	iret
on_page_fault:
	popl %eax		# the error code
	outl %eax,$0x80
	movl %cr2,%eax		# the address
	outl %eax,$0x80
	addl $5,(%esp)		# the read has five bytes
	iret
on_call:
	movl (%esp),%eax	# the saved EIP: behind the INT
	outl %eax,$0x80
	iret
