	.file	"count.c"
	.text
	.p2align 4
	.type	put_number, @function
put_number:
	pushl	%edi
	pushl	%esi
	pushl	%ebx
	movl	%eax, %ebx
	subl	$4, %esp
	cmpl	$9, %eax
	ja	.L15
.L2:
	movl	$-858993459, %eax
	mull	%ebx
	shrl	$3, %edx
	leal	0(,%edx,4), %eax
	addl	%edx, %eax
	movl	$1021, %edx
	addl	%eax, %eax
	subl	%eax, %ebx
	leal	48(%ebx), %ecx
	.p2align 4
	.p2align 3
.L6:
#APP
# 10 "count.c" 1
	inb %dx, %al
# 0 "" 2
#NO_APP
	andb	$32, %al
	je	.L6
	movl	$1016, %edx
	movb	%cl, %al
#APP
# 5 "count.c" 1
	outb %al, %dx
# 0 "" 2
#NO_APP
	popl	%eax
	popl	%ebx
	popl	%esi
	popl	%edi
	ret
	.p2align 4,,10
	.p2align 3
.L15:
	movl	$-858993459, %esi
	mull	%esi
	movl	%edx, %ecx
	shrl	$3, %ecx
	cmpl	$99, %ebx
	ja	.L16
.L3:
	movl	$-858993459, %eax
	mull	%ecx
	shrl	$3, %edx
	leal	0(,%edx,4), %eax
	addl	%edx, %eax
	movl	$1021, %edx
	addl	%eax, %eax
	subl	%eax, %ecx
	addl	$48, %ecx
	.p2align 4
	.p2align 3
.L5:
#APP
# 10 "count.c" 1
	inb %dx, %al
# 0 "" 2
#NO_APP
	andb	$32, %al
	je	.L5
	movl	$1016, %edx
	movb	%cl, %al
#APP
# 5 "count.c" 1
	outb %al, %dx
# 0 "" 2
#NO_APP
	jmp	.L2
	.p2align 4,,10
	.p2align 3
.L16:
	movl	%ecx, %eax
	mull	%esi
	movl	%edx, %edi
	shrl	$3, %edi
	movl	%edi, %eax
	mull	%esi
	shrl	$3, %edx
	leal	0(,%edx,4), %eax
	addl	%edx, %eax
	movl	$1021, %edx
	addl	%eax, %eax
	subl	%eax, %edi
	leal	48(%edi), %eax
	movl	%eax, (%esp)
	.p2align 4
	.p2align 3
.L4:
#APP
# 10 "count.c" 1
	inb %dx, %al
# 0 "" 2
#NO_APP
	andb	$32, %al
	je	.L4
	movzbl	(%esp), %eax
	movl	$1016, %edx
#APP
# 5 "count.c" 1
	outb %al, %dx
# 0 "" 2
#NO_APP
	jmp	.L3
	.size	put_number, .-put_number
	.section	.text.startup,"ax",@progbits
	.p2align 4
	.globl	main
	.type	main, @function
main:
	pushl	%ebp
	movl	$-858993459, %ebp
	pushl	%edi
	movl	$1016, %edi
	pushl	%esi
	movl	$1, %esi
	pushl	%ebx
	movl	$1021, %ebx
	subl	$4, %esp
	.p2align 4
	.p2align 3
.L23:
	movl	%esi, %ecx
	imull	%esi, %ecx
	cmpl	$9, %ecx
	ja	.L33
.L18:
	movl	%ecx, %eax
	mull	%ebp
	shrl	$3, %edx
	leal	0(,%edx,4), %eax
	addl	%edx, %eax
	addl	%eax, %eax
	subl	%eax, %ecx
	addl	$48, %ecx
	.p2align 4
	.p2align 3
.L20:
	movl	%ebx, %edx
#APP
# 10 "count.c" 1
	inb %dx, %al
# 0 "" 2
#NO_APP
	andb	$32, %al
	je	.L20
	movb	%cl, %al
	movl	%edi, %edx
#APP
# 5 "count.c" 1
	outb %al, %dx
# 0 "" 2
#NO_APP
	cmpl	$9, %esi
	setne	%cl
	decb	%cl
	andb	$-22, %cl
	addb	$32, %cl
	.p2align 4
	.p2align 3
.L22:
	movl	%ebx, %edx
#APP
# 10 "count.c" 1
	inb %dx, %al
# 0 "" 2
#NO_APP
	andb	$32, %al
	je	.L22
	movb	%cl, %al
	movl	%edi, %edx
#APP
# 5 "count.c" 1
	outb %al, %dx
# 0 "" 2
#NO_APP
	incl	%esi
	cmpl	$10, %esi
	jne	.L23
	popl	%edx
	xorl	%eax, %eax
	popl	%ebx
	popl	%esi
	popl	%edi
	popl	%ebp
	ret
	.p2align 4,,10
	.p2align 3
.L33:
	movl	%ecx, %eax
	mull	%ebp
	shrl	$3, %edx
	leal	48(%edx), %eax
	movl	%eax, (%esp)
	.p2align 4
	.p2align 3
.L19:
	movl	%ebx, %edx
#APP
# 10 "count.c" 1
	inb %dx, %al
# 0 "" 2
#NO_APP
	andb	$32, %al
	je	.L19
	movzbl	(%esp), %eax
	movl	%edi, %edx
#APP
# 5 "count.c" 1
	outb %al, %dx
# 0 "" 2
#NO_APP
	jmp	.L18
	.size	main, .-main
	.ident	"GCC: (Debian 12.2.0-14+deb12u1) 12.2.0"
	.section	.note.GNU-stack,"",@progbits
