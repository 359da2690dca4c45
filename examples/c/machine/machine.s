	.file	"machine.c"
	.text
	.section	.rodata.str1.1,"aMS",@progbits,1
.LC0:
	.string	"%08x "
	.text
	.p2align 4
	.type	out_hex, @function
out_hex:
	subl	$28, %esp
	movl	$.LC0, (%esp)
	movl	32(%esp), %eax
	movl	%eax, 4(%esp)
	call	kprintf
	addl	$28, %esp
	ret
	.size	out_hex, .-out_hex
	.section	.rodata.str1.1
.LC1:
	.string	"%d "
	.text
	.p2align 4
	.type	out_number, @function
out_number:
	subl	$28, %esp
	movl	$.LC1, (%esp)
	movl	32(%esp), %eax
	movl	%eax, 4(%esp)
	call	kprintf
	addl	$28, %esp
	ret
	.size	out_number, .-out_number
	.section	.rodata.str1.1
.LC2:
	.string	"bad code\n"
	.text
	.p2align 4
	.type	run, @function
run:
	pushl	%ebp
	xorl	%edx, %edx
	pushl	%edi
	xorl	%ebp, %ebp
	pushl	%esi
	xorl	%ecx, %ecx
	pushl	%ebx
	movl	%eax, %ebx
	subl	$44, %esp
	xorl	%eax, %eax
	movl	%edx, 20(%esp)
	.p2align 4
	.p2align 3
.L6:
	leal	1(%eax), %esi
	incl	%ebp
	cmpb	$20, (%ebx,%eax)
	ja	.L7
	movzbl	(%ebx,%eax), %edx
	movl	.L9(,%edx,4), %edx
	jmp	*%edx
	.section	.rodata
	.align 4
	.align 4
.L9:
	.long	.L29
	.long	.L28
	.long	.L27
	.long	.L26
	.long	.L25
	.long	.L24
	.long	.L23
	.long	.L22
	.long	.L21
	.long	.L20
	.long	.L34
	.long	.L18
	.long	.L17
	.long	.L16
	.long	.L15
	.long	.L14
	.long	.L13
	.long	.L12
	.long	.L11
	.long	.L10
	.long	.L5
	.text
.L7:
	movl	$.LC2, (%esp)
	call	put
.L5:
	addl	$44, %esp
	movl	%ebp, %eax
	popl	%ebx
	popl	%esi
	popl	%edi
	popl	%ebp
	ret
.L18:
	decl	%ecx
	addl	$2, %eax
	cmpl	$0, stack(,%ecx,4)
	je	.L6
.L34:
	movzbl	(%ebx,%esi), %eax
	jmp	.L6
.L10:
	leal	-2(%ecx), %edx
	decl	%ecx
	movzbl	stack(,%ecx,4), %eax
	movl	stack(,%edx,4), %ecx
	movl	%ecx, memory(,%eax,4)
	movl	%esi, %eax
	movl	%edx, %ecx
	jmp	.L6
.L11:
	leal	-1(%ecx), %eax
	movzbl	stack(,%eax,4), %edx
	movl	memory(,%edx,4), %edx
	movl	%edx, stack(,%eax,4)
	movl	%esi, %eax
	jmp	.L6
.L12:
	leal	-1(%ecx), %edx
	movl	stack(,%edx,4), %edi
	leal	-2(%ecx), %eax
	movl	%edi, 24(%esp)
	movl	stack(,%eax,4), %edi
	movl	%edi, stack(,%edx,4)
	movl	24(%esp), %edi
	movl	%edi, stack(,%eax,4)
	movl	%esi, %eax
	jmp	.L6
.L13:
	decl	%ecx
	movl	%esi, %eax
	jmp	.L6
.L20:
	leal	-1(%ecx), %edx
	subl	$2, %ecx
	movl	stack(,%ecx,4), %eax
	cmpl	stack(,%edx,4), %eax
	sete	%al
	movzbl	%al, %eax
	movl	%eax, stack(,%ecx,4)
	movl	%esi, %eax
	movl	%edx, %ecx
	jmp	.L6
.L21:
	leal	-1(%ecx), %edx
	subl	$2, %ecx
	movl	stack(,%ecx,4), %eax
	cmpl	stack(,%edx,4), %eax
	setl	%al
	movzbl	%al, %eax
	movl	%eax, stack(,%ecx,4)
	movl	%esi, %eax
	movl	%edx, %ecx
	jmp	.L6
.L14:
	leal	-1(%ecx), %eax
	movl	stack(,%eax,4), %eax
	movl	%eax, stack(,%ecx,4)
	incl	%ecx
	movl	%esi, %eax
	jmp	.L6
.L15:
	decl	%ecx
	movzbl	(%ebx,%esi), %edx
	addl	$2, %eax
	movl	%eax, 28(%esp)
	movl	stack(,%ecx,4), %esi
	movl	%ecx, 24(%esp)
	movl	outs(,%edx,4), %edx
	movl	%esi, (%esp)
	call	*%edx
	movl	24(%esp), %ecx
	movl	28(%esp), %eax
	jmp	.L6
.L16:
	decl	20(%esp)
	movl	20(%esp), %eax
	movl	frame(,%eax,4), %eax
	jmp	.L6
.L17:
	movl	20(%esp), %edi
	addl	$2, %eax
	movl	%eax, frame(,%edi,4)
	leal	1(%edi), %edx
	movzbl	(%ebx,%esi), %eax
	movl	%edx, 20(%esp)
	jmp	.L6
.L22:
	leal	-1(%ecx), %edi
	subl	$2, %ecx
	movl	stack(,%ecx,4), %eax
	cltd
	idivl	stack(,%edi,4)
	movl	%esi, %eax
	movl	%edx, stack(,%ecx,4)
	movl	%edi, %ecx
	jmp	.L6
.L23:
	leal	-1(%ecx), %edx
	subl	$2, %ecx
	movl	stack(,%ecx,4), %eax
	imull	stack(,%edx,4), %eax
	movl	%eax, stack(,%ecx,4)
	movl	%esi, %eax
	movl	%edx, %ecx
	jmp	.L6
.L24:
	leal	-1(%ecx), %edx
	subl	$2, %ecx
	movl	stack(,%ecx,4), %eax
	subl	stack(,%edx,4), %eax
	movl	%eax, stack(,%ecx,4)
	movl	%esi, %eax
	movl	%edx, %ecx
	jmp	.L6
.L25:
	leal	-1(%ecx), %edx
	subl	$2, %ecx
	movl	stack(,%ecx,4), %eax
	addl	stack(,%edx,4), %eax
	movl	%eax, stack(,%ecx,4)
	movl	%esi, %eax
	movl	%edx, %ecx
	jmp	.L6
.L26:
	decl	%ecx
	movzbl	(%ebx,%esi), %edx
	addl	$2, %eax
	movl	stack(,%ecx,4), %esi
	movl	%esi, memory(,%edx,4)
	jmp	.L6
.L27:
	movzbl	(%ebx,%esi), %esi
	leal	1(%ecx), %edx
	addl	$2, %eax
	movl	memory(,%esi,4), %esi
	movl	%esi, stack(,%ecx,4)
	movl	%edx, %ecx
	jmp	.L6
.L28:
	leal	1(%ecx), %edi
	movzbl	3(%ebx,%eax), %edx
	movl	%edi, 24(%esp)
	movzbl	2(%ebx,%eax), %edi
	movzbl	(%ebx,%esi), %esi
	sall	$16, %edx
	sall	$8, %edi
	orl	%edi, %edx
	orl	%esi, %edx
	movzbl	4(%ebx,%eax), %esi
	addl	$5, %eax
	sall	$24, %esi
	orl	%esi, %edx
	movl	%edx, stack(,%ecx,4)
	movl	24(%esp), %ecx
	jmp	.L6
.L29:
	movsbl	(%ebx,%esi), %esi
	leal	1(%ecx), %edx
	addl	$2, %eax
	movl	%esi, stack(,%ecx,4)
	movl	%edx, %ecx
	jmp	.L6
	.size	run, .-run
	.p2align 4
	.type	out_char, @function
out_char:
	jmp	putch
	.size	out_char, .-out_char
	.section	.rodata.str1.1
.LC3:
	.string	"steps %u\n"
	.section	.text.startup,"ax",@progbits
	.p2align 4
	.globl	main
	.type	main, @function
main:
	pushl	%ebp
	movl	$fibonacci, %eax
	movl	%esp, %ebp
	andl	$-16, %esp
	subl	$16, %esp
	call	run
	movl	$.LC3, (%esp)
	movl	%eax, 4(%esp)
	call	kprintf
	movl	$ackermann, %eax
	call	run
	movl	$.LC3, (%esp)
	movl	%eax, 4(%esp)
	call	kprintf
	movl	$mixing, %eax
	call	run
	movl	$.LC3, (%esp)
	movl	%eax, 4(%esp)
	call	kprintf
	xorl	%eax, %eax
	leave
	ret
	.size	main, .-main
	.section	.rodata
	.align 32
	.type	mixing, @object
	.size	mixing, 88
mixing:
	.string	""
	.string	"2\003"
	.string	"\00190"
	.string	""
	.string	"\003\001\002\001\001\rf\031"
	.string	"\006\001_\363n<\004\017\003\001\002"
	.string	"\023\002"
	.string	""
	.string	"\001\004\017\003"
	.string	"\001\372"
	.string	""
	.string	""
	.string	"\b\013\013"
	.string	"2\003"
	.string	""
	.string	""
	.string	"\003\002\002"
	.string	"\022\002\002\004\003\002\002"
	.string	""
	.string	"\001\004\017\003"
	.string	"\001\372"
	.string	""
	.string	""
	.string	"\b\0137\002\002\016\002"
	.ascii	"\n\016\001\024"
	.align 32
	.type	ackermann, @object
	.size	ackermann, 60
ackermann:
	.string	""
	.string	"\002"
	.string	"\003\f\r\016"
	.string	""
	.string	"\n\016\001\024\021\017\013\026\020"
	.string	"\001\004\r\021\017\013#\020"
	.string	"\001\005"
	.string	"\001\f\r\r\021\017"
	.string	"\001\005\003\t\003\b\003\007\002\t\002\b\002\007"
	.ascii	"\001\005\f\r\f\r\r"
	.align 32
	.type	fibonacci, @object
	.size	fibonacci, 41
fibonacci:
	.string	""
	.string	""
	.string	"\003"
	.string	""
	.string	"\001\003\001"
	.string	"\024\003\002\002"
	.string	"\016"
	.string	"\002\001\017\002"
	.string	"\004\003\001\003"
	.string	"\002\002"
	.string	"\001\005\017\003\002\013\f"
	.ascii	"\n\016\001\024"
	.align 4
	.type	outs, @object
	.size	outs, 12
outs:
	.long	out_number
	.long	out_char
	.long	out_hex
	.local	memory
	.comm	memory,1024,32
	.local	frame
	.comm	frame,256,32
	.local	stack
	.comm	stack,1024,32
	.ident	"GCC: (Debian 12.2.0-14+deb12u1) 12.2.0"
	.section	.note.GNU-stack,"",@progbits
