	.file	"console.c"
	.text
	.p2align 4
	.globl	putch
	.type	putch, @function
putch:
	movl	$1021, %edx
	.p2align 4
	.p2align 3
.L2:
#APP
# 13 "console.c" 1
	inb %dx, %al
# 0 "" 2
#NO_APP
	andb	$32, %al
	je	.L2
	movl	4(%esp), %eax
	movl	$1016, %edx
#APP
# 8 "console.c" 1
	outb %al, %dx
# 0 "" 2
#NO_APP
	ret
	.size	putch, .-putch
	.ident	"GCC: (Debian 12.2.0-14+deb12u1) 12.2.0"
	.section	.note.GNU-stack,"",@progbits
