# A read that passes the last address.
	.text
	.globl _start
_start:
	movl 0xfffffffe,%eax
