# A jump to a page that isn't present, with no IDT.
	.text
	.globl _start
_start:
	movl $0x30000010,%eax
	jmp *%eax
