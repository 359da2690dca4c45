# Code at level 3 counts to 20 and calls the kernel by INT 0x80, over and over.
	.data
user_code:			# at 0x11000000, in the first page of data
	.byte 0xb9, 20, 0, 0, 0	# movl $20,%ecx
	.byte 0x40		# incl %eax
	.byte 0x49		# decl %ecx
	.byte 0x75, 0xfc	# jne to the INC
	.byte 0xcd, 0x80	# int $0x80
	.byte 0xeb, 0xf3	# jmp user_code
calls:
	.long 0
	.text
	.globl _start
_start:
	call load_tables
	# the gate of vector 0x80, of level 3
	movw $0xee00,%cx
	movl $on_call,%eax
	movl $idt+0x400,%edi
	call set_gate
	movl $user_code,%eax
	jmp enter_level_3
on_call:
	incl calls
	iret
