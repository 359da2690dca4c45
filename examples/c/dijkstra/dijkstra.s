	.file	"dijkstra.c"
	.text
	.section	.rodata.str1.4,"aMS",@progbits,1
	.align 4
.LC0:
	.string	"from %d: sum %u; way to 63 (%d):"
	.section	.rodata.str1.1,"aMS",@progbits,1
.LC1:
	.string	" %d"
.LC2:
	.string	"\n"
	.section	.text.startup,"ax",@progbits
	.p2align 4
	.globl	main
	.type	main, @function
main:
	pushl	%ebp
	xorl	%eax, %eax
	movl	%esp, %ebp
	pushl	%edi
	pushl	%esi
	pushl	%ebx
	andl	$-16, %esp
	subl	$48, %esp
	.p2align 4
	.p2align 3
.L2:
	movl	$-1, %edi
	movl	%edi, first(,%eax,4)
	incl	%eax
	cmpl	$64, %eax
	jne	.L2
	xorl	%ebx, %ebx
	movl	$107481665, %esi
	.p2align 4
	.p2align 3
.L3:
	call	next_random
	andb	$63, %al
	movb	%al, roads(,%ebx,8)
	call	next_random
	andb	$63, %al
	movb	%al, roads+1(,%ebx,8)
	call	next_random
	movl	%eax, %ecx
	mull	%esi
	movl	%ecx, %eax
	subl	%edx, %eax
	shrl	%eax
	addl	%eax, %edx
	movzbl	roads(,%ebx,8), %eax
	shrl	$9, %edx
	imull	$999, %edx, %edx
	subl	%edx, %ecx
	movl	first(,%eax,4), %edx
	movl	%ebx, first(,%eax,4)
	incl	%ecx
	movw	%cx, roads+2(,%ebx,8)
	movl	%edx, roads+4(,%ebx,8)
	incl	%ebx
	cmpl	$400, %ebx
	jne	.L3
	xorl	%ebx, %ebx
.L4:
	xorl	%eax, %eax
	.p2align 4
	.p2align 3
.L5:
	movb	$-1, before(%eax)
	movl	$-1, %ecx
	movl	$-1, %esi
	movl	%ecx, far(,%eax,4)
	movw	%si, where(%eax,%eax)
	incl	%eax
	cmpl	$64, %eax
	jne	.L5
	xorl	%esi, %esi
	xorl	%edi, %edi
	movl	%esi, far(,%ebx,4)
	movl	$1, %edx
	movb	%bl, %al
	movb	%bl, 23(%esp)
	movw	%di, where(%ebx,%ebx)
	movl	%edx, 32(%esp)
	movl	%ebx, 16(%esp)
	.p2align 4
	.p2align 3
.L19:
	decl	32(%esp)
	xorl	%edx, %edx
	movzbl	23(%esp), %ebx
	movl	$-2, %ecx
	movb	%al, heap
	movl	32(%esp), %edi
	movb	%bl, heap(%edi)
	decl	%edi
	movzbl	heap, %eax
	movw	%dx, where(%eax,%eax)
	movb	%al, 28(%esp)
	movl	%eax, 40(%esp)
	movw	%cx, where(%ebx,%ebx)
	jle	.L48
	movl	40(%esp), %eax
	movl	$1, %edi
	xorl	%edx, %edx
	movl	%ebx, 24(%esp)
	movl	far(,%eax,4), %eax
	movl	%eax, 36(%esp)
	jmp	.L11
	.p2align 4,,10
	.p2align 3
.L49:
	movzbl	heap(%eax), %esi
	movl	%esi, %ebx
	movl	far(,%esi,4), %esi
	cmpl	%ecx, %esi
	jnb	.L26
	movb	%bl, 44(%esp)
	movl	36(%esp), %edi
	movl	%esi, %ecx
	cmpl	%edi, %ecx
	jnb	.L10
.L50:
	movzbl	44(%esp), %ecx
	leal	(%eax,%eax), %edi
	movzbl	28(%esp), %ebx
	incl	%edi
	movl	40(%esp), %esi
	cmpl	%edi, 32(%esp)
	movb	%cl, heap(%edx)
	movb	%bl, heap(%eax)
	movzbl	heap(%edx), %ecx
	movw	%dx, where(%ecx,%ecx)
	movw	%ax, where(%esi,%esi)
	jle	.L10
	movl	%eax, %edx
.L11:
	leal	1(%edx), %eax
	movzbl	heap(%edi), %ebx
	addl	%eax, %eax
	cmpl	%eax, 32(%esp)
	movb	%bl, 44(%esp)
	movl	far(,%ebx,4), %ecx
	jg	.L49
.L26:
	movl	%edi, %eax
	movl	36(%esp), %edi
	cmpl	%edi, %ecx
	jb	.L50
.L10:
	movl	24(%esp), %ebx
	movl	first(,%ebx,4), %ecx
	testl	%ecx, %ecx
	js	.L24
	.p2align 4
	.p2align 3
.L17:
	movzwl	roads+2(,%ecx,8), %edx
	movl	far(,%ebx,4), %edi
	movzbl	roads+1(,%ecx,8), %esi
	addl	%edi, %edx
	cmpl	far(,%esi,4), %edx
	movl	%esi, %eax
	jnb	.L12
	movl	%edx, far(,%esi,4)
	movzbl	23(%esp), %edx
	movb	%dl, before(%esi)
	movswl	where(%esi,%esi), %edx
	cmpl	$-1, %edx
	jne	.L13
	movl	32(%esp), %edi
	movb	%al, heap(%edi)
	movswl	%di, %edx
	incl	%edi
	movw	%dx, where(%esi,%esi)
	movl	%edi, 32(%esp)
.L13:
	testl	%edx, %edx
	movl	%edx, %eax
	je	.L12
	movl	%ecx, 28(%esp)
	movzbl	heap(%edx), %edi
	movl	%ebx, 24(%esp)
	movl	%edi, 36(%esp)
	movl	far(,%edi,4), %esi
	movl	%edi, %edx
	movb	%dl, 40(%esp)
	movl	%esi, 44(%esp)
	jmp	.L15
	.p2align 4,,10
	.p2align 3
.L16:
	movb	%bl, heap(%ecx)
	movzbl	40(%esp), %ebx
	testl	%eax, %eax
	movl	36(%esp), %esi
	movb	%bl, heap(%edx)
	movzbl	heap(%ecx), %edx
	movw	%cx, where(%edx,%edx)
	movw	%ax, where(%esi,%esi)
	je	.L44
.L15:
	movl	%eax, %ecx
	decl	%eax
	movl	44(%esp), %edi
	movl	%eax, %edx
	shrl	$31, %edx
	addl	%eax, %edx
	sarl	%edx
	movzbl	heap(%edx), %esi
	movl	%edx, %eax
	cmpl	far(,%esi,4), %edi
	movl	%esi, %ebx
	jb	.L16
.L44:
	movl	28(%esp), %ecx
	movl	24(%esp), %ebx
.L12:
	movl	roads+4(,%ecx,8), %ecx
	testl	%ecx, %ecx
	jns	.L17
.L8:
	movl	32(%esp), %edx
	testl	%edx, %edx
	je	.L18
.L24:
	movzbl	heap, %eax
	movb	%al, 23(%esp)
	movl	32(%esp), %eax
	movzbl	heap-1(%eax), %eax
	jmp	.L19
.L18:
	xorl	%eax, %eax
	movl	16(%esp), %ebx
	xorl	%edx, %edx
	movl	%eax, count
	movl	32(%esp), %eax
	.p2align 4
	.p2align 3
.L21:
	movl	far(,%eax,4), %ecx
	cmpl	$-1, %ecx
	je	.L20
	addl	%ecx, %edx
.L20:
	incl	%eax
	cmpl	$64, %eax
	jne	.L21
	movl	far+252, %eax
	movl	$63, %esi
	movl	%edx, 8(%esp)
	movl	%ebx, 4(%esp)
	movl	$.LC0, (%esp)
	movl	%eax, 12(%esp)
	call	kprintf
	.p2align 4
	.p2align 3
.L22:
	movl	%esi, 4(%esp)
	movl	$.LC1, (%esp)
	call	kprintf
	movsbl	before(%esi), %esi
	testl	%esi, %esi
	jns	.L22
	movl	$.LC2, (%esp)
	incl	%ebx
	call	put
	cmpl	$4, %ebx
	jne	.L4
	leal	-12(%ebp), %esp
	xorl	%eax, %eax
	popl	%ebx
	popl	%esi
	popl	%edi
	popl	%ebp
	ret
.L48:
	movl	first(,%ebx,4), %ecx
	testl	%ecx, %ecx
	jns	.L17
	jmp	.L8
	.size	main, .-main
	.local	count
	.comm	count,4,4
	.local	where
	.comm	where,128,32
	.local	heap
	.comm	heap,64,32
	.local	before
	.comm	before,64,32
	.local	far
	.comm	far,256,32
	.local	first
	.comm	first,256,32
	.local	roads
	.comm	roads,3200,32
	.ident	"GCC: (Debian 12.2.0-14+deb12u1) 12.2.0"
	.section	.note.GNU-stack,"",@progbits
