# A page fault with no IDT: its delivery stops.
	.text
	.globl _start
_start:
	movl 0x20000000,%eax
