# What several kernels begin with: an IDT, a GDT with a TSS, and the interrupt controllers. It is linked after a kernel,
# whose data then begins at 0x11000000.
	.data
	.p2align 3
	.globl idt_register
idt_register:
	.word 0x7ff
	.long idt
gdt_register:
	.word 0x2f
	.long gdt
	.p2align 3
gdt:				# as at boot, and a TSS
	.long 0, 0
	.long 0xffff, 0xcf9b00
	.long 0xffff, 0xcf9300
	.long 0xffff, 0xcffa00
	.long 0xffff, 0xcff200
tss_descriptor:
	.long 0x67, 0x8900	# limit 0x67, available; the base is put in at the start
	.bss
	.p2align 3
	.globl idt
idt:
	.zero 2048
tss:
	.zero 104
	.text

# A gate: the handler in EAX, its place in the IDT in EDI, the present bit, level and type in CX (0x8e00, 0xee00).
	.globl set_gate
set_gate:
	movl %eax,(%edi)
	movw $0x08,2(%edi)
	movl %eax,4(%edi)
	movw %cx,4(%edi)
	ret

# What code at level 3 needs: the first page of data may be used there, a TSS says which stack level 0 has, and the IDT
# is loaded.
	.globl load_tables
load_tables:
	# U/S in the PDE and in the PTE
	orl $4,0xc0001110
	orl $4,0xc0018000
	# ESP0 and SS0 of the TSS, and its descriptor
	movl $0xc0100000,tss+4
	movl $0x10,tss+8
	movl $tss,%eax
	movw %ax,tss_descriptor+2
	shrl $16,%eax
	movb %al,tss_descriptor+4
	movb %ah,tss_descriptor+7
	lgdt gdt_register
	movl $0x28,%eax
	ltr %ax
	lidt idt_register
	ret

# The timer's interrupt at vector 0x20, by the handler in EAX; of the master controller's lines only the timer's is open.
	.globl take_timer
take_timer:
	movw $0x8e00,%cx
	movl $idt+0x100,%edi
	call set_gate
	lidt idt_register
	movb $0x11,%al
	outb %al,$0x20
	movb $0x20,%al
	outb %al,$0x21
	movb $4,%al
	outb %al,$0x21
	movb $1,%al
	outb %al,$0x21
	movb $0xfe,%al
	outb %al,$0x21
	ret

# To level 3, at the address in EAX: SS, ESP, EFLAGS with IF, CS, EIP.
	.globl enter_level_3
enter_level_3:
	movl $0x23,%ecx
	movl %ecx,%ds
	pushl $0x23
	pushl $0
	pushl $0x202
	pushl $0x1b
	pushl %eax
	iret
