# Runs code at level 3: a CLI, an INT through a gate of level 3, one through a gate of level 0, and a read of the
# kernel's text. The first and the third raise #GP, whose handler shows the error code and skips the instruction,
# by its length in EBX; the last one raises #PF, whose handler shows the error code and CR2, and halts.
	.data
user_code:			# at 0x11000000, in the first page of data
	.byte 0xbb, 1, 0, 0, 0	# movl $1,%ebx
	.byte 0xfa		# cli
	.byte 0xcd, 0x80	# int $0x80
	.byte 0xbb, 2, 0, 0, 0	# movl $2,%ebx
	.byte 0xcd, 0x20	# int $0x20
	.byte 0xa1, 0, 0, 0, 0x10	# movl 0x10000000,%eax
	.text
	.globl _start
_start:
	call load_tables
	# gates: vectors 13 and 14 of level 0, 0x80 of level 3, 0x20 of level 0
	movw $0x8e00,%cx
	movl $on_protection,%eax
	movl $idt+0x68,%edi
	call set_gate
	movl $on_page_fault,%eax
	movl $idt+0x70,%edi
	call set_gate
	movw $0xee00,%cx
	movl $on_call,%eax
	movl $idt+0x400,%edi
	call set_gate
	movw $0x8e00,%cx
	movl $rest,%eax
	movl $idt+0x100,%edi
	call set_gate
	movl $user_code,%eax
	jmp enter_level_3
on_call:
	movb $0x77,%al
	outb %al,$0x80
	iret
on_protection:
	popl %eax		# the error code
	outl %eax,$0x80
	addl %ebx,(%esp)
	iret
on_page_fault:
	popl %eax
	outl %eax,$0x80
	movl %cr2,%eax
	outl %eax,$0x80
	hlt
rest:
	jmp rest
