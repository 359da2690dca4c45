	.file	"kernel.c"
	.text
	.p2align 4
	.type	put_number, @function
put_number:
	pushl	%ebp
	xorl	%ecx, %ecx
	pushl	%edi
	pushl	%esi
	pushl	%ebx
	movl	%eax, %ebx
	subl	$20, %esp
	leal	10(%esp), %esi
	.p2align 4
	.p2align 3
.L2:
	movl	%ecx, (%esp)
	leal	9(%esp), %eax
	incl	%ecx
	leal	(%eax,%ecx), %edi
	movl	$-858993459, %eax
	mull	%ebx
	movl	%ebx, %eax
	shrl	$3, %edx
	leal	0(,%edx,4), %ebp
	addl	%edx, %ebp
	addl	%ebp, %ebp
	subl	%ebp, %eax
	addb	$48, %al
	movb	%al, (%edi)
	movl	%ebx, %eax
	movl	%edx, %ebx
	cmpl	$9, %eax
	ja	.L2
	movl	(%esp), %edi
	movl	$1021, %ebx
	movl	$1016, %ebp
	addl	%esi, %edi
	.p2align 4
	.p2align 3
.L4:
	movzbl	(%edi), %ecx
	.p2align 4
	.p2align 3
.L3:
	movl	%ebx, %edx
#APP
# 15 "kernel.c" 1
	inb %dx, %al
# 0 "" 2
#NO_APP
	andb	$32, %al
	je	.L3
	movb	%cl, %al
	movl	%ebp, %edx
#APP
# 10 "kernel.c" 1
	outb %al, %dx
# 0 "" 2
#NO_APP
	leal	-1(%edi), %eax
	cmpl	%esi, %edi
	je	.L11
	movl	%eax, %edi
	jmp	.L4
	.p2align 4,,10
	.p2align 3
.L11:
	addl	$20, %esp
	popl	%ebx
	popl	%esi
	popl	%edi
	popl	%ebp
	ret
	.size	put_number, .-put_number
	.p2align 4
	.type	make, @function
make:
	pushl	%ebp
	pushl	%edi
	movl	%edx, %edi
	pushl	%esi
	pushl	%ebx
	subl	$24, %esp
	movl	%edx, 12(%eax)
	movl	next_frame, %edx
	movl	%eax, 8(%esp)
	leal	4096(%edx), %ebp
	movl	%ebp, next_frame
	leal	-1073741824(%edx), %eax
	movl	%eax, 4(%esp)
	leal	-1073737728(%edx), %ecx
	.p2align 4
	.p2align 3
.L13:
	movl	$0, (%eax)
	addl	$4, %eax
	cmpl	%ecx, %eax
	jne	.L13
	movl	8(%esp), %eax
	movl	4(%esp), %ebx
	movl	%edx, 4(%eax)
	movl	%ebx, 8(%eax)
#APP
# 27 "kernel.c" 1
	movl %cr3, %ebx
# 0 "" 2
#NO_APP
	andl	$-4096, %ebx
	leal	-1073741824(%ebx), %eax
	subl	%ebx, %edx
	leal	-1073737728(%ebx), %ecx
	.p2align 4
	.p2align 3
.L14:
	movl	(%eax), %ebx
	movl	%ebx, (%edx,%eax)
	addl	$4, %eax
	cmpl	%ecx, %eax
	jne	.L14
	movl	user_memory_size, %eax
	testl	%eax, %eax
	je	.L29
	movl	%edi, 20(%esp)
	movl	user_image_size, %ebx
	xorl	%esi, %esi
.L23:
	leal	4096(%ebp), %eax
	movl	%eax, (%esp)
	leal	-1073741824(%ebp), %edi
	leal	-1073737728(%ebp), %eax
	movl	%edi, %edx
	.p2align 4
	.p2align 3
.L16:
	movl	$0, (%edx)
	addl	$4, %edx
	cmpl	%edx, %eax
	jne	.L16
	movl	%esi, %ecx
	subl	%esi, %edi
	movl	%eax, 4(%esp)
	leal	4096(%esi), %edx
	jmp	.L17
	.p2align 4,,10
	.p2align 3
.L20:
	movzbl	user_image(%ecx), %eax
	movb	%al, (%edi,%ecx)
	incl	%ecx
	cmpl	%ecx, %edx
	je	.L40
.L17:
	cmpl	%ebx, %ecx
	jb	.L20
.L40:
	leal	1073741824(%esi), %edi
	movl	8(%esp), %esi
	movl	%edi, %ecx
	movl	4(%esp), %eax
	shrl	$22, %ecx
	sall	$2, %ecx
	movl	8(%esi), %esi
	movl	%esi, 4(%esp)
	addl	%ecx, %esi
	movl	%esi, 12(%esp)
	movl	(%esi), %esi
	movl	%esi, %ecx
	andl	$1, %ecx
	je	.L41
.L19:
	movl	%edi, %eax
	andl	$-4096, %esi
	shrl	$12, %eax
	orl	$7, %ebp
	andl	$1023, %eax
	cmpl	user_memory_size, %edx
	movl	%ebp, -1073741824(%esi,%eax,4)
	movl	%edx, %esi
	jnb	.L42
	movl	(%esp), %ebp
	jmp	.L23
.L41:
	movl	12(%esp), %ecx
	leal	8192(%ebp), %esi
	movl	%esi, 16(%esp)
	leal	-1073733632(%ebp), %esi
	.p2align 4
	.p2align 3
.L22:
	movl	$0, (%eax)
	addl	$4, %eax
	cmpl	%eax, %esi
	jne	.L22
	movl	(%esp), %esi
	movl	16(%esp), %eax
	orl	$7, %esi
	movl	%esi, (%ecx)
	movl	%eax, (%esp)
	jmp	.L19
.L42:
	movl	20(%esp), %edi
.L15:
	movl	(%esp), %eax
	leal	4096(%eax), %ecx
	movl	%ecx, next_frame
	leal	-1073741824(%eax), %edx
	subl	$1073737728, %eax
	.p2align 4
	.p2align 3
.L24:
	movl	$0, (%edx)
	addl	$4, %edx
	cmpl	%edx, %eax
	jne	.L24
	movl	4(%esp), %ebx
	movl	1276(%ebx), %edx
	movl	%edx, %ebx
	andl	$1, %ebx
	je	.L43
.L25:
	movl	(%esp), %eax
	andl	$-4096, %edx
	movl	8(%esp), %ebx
	orl	$7, %eax
	movl	%eax, -1073737732(%edx)
	leal	4060(%ebx), %ecx
	xorl	%edx, %edx
	xorl	%eax, %eax
.L27:
	movl	%edx, 4060(%ebx,%eax)
	movl	%edx, 4064(%ebx,%eax)
	addl	$8, %eax
	cmpl	$64, %eax
	jb	.L27
	addl	%eax, %ecx
	movl	8(%esp), %eax
	movl	$35, %edx
	movl	$0, (%ecx)
	movl	$1073741824, %ebx
	movl	$35, %ecx
	movl	$27, %esi
	movl	$514, %ebp
	movl	%edx, 4060(%eax)
	movl	$1342177280, %edx
	movl	%ecx, 4064(%eax)
	movl	$35, %ecx
	movl	%ebx, 4108(%eax)
	movl	$leave_trap, %ebx
	movl	%edi, 4096(%eax)
	movl	%eax, %edi
	movl	%esi, 4112(%eax)
	leal	4040(%eax), %eax
	movl	%ebp, 76(%eax)
	movl	%edx, 80(%eax)
	movl	%ecx, 84(%eax)
	movl	%ebx, 16(%eax)
	movl	%eax, (%edi)
	addl	$24, %esp
	popl	%ebx
	popl	%esi
	popl	%edi
	popl	%ebp
	ret
.L43:
	movl	(%esp), %ebx
	leal	8192(%ebx), %edx
	movl	%edx, next_frame
	leal	-1073733632(%ebx), %edx
	.p2align 4
	.p2align 3
.L26:
	movl	$0, (%eax)
	addl	$4, %eax
	cmpl	%eax, %edx
	jne	.L26
	movl	4(%esp), %eax
	orl	$7, %ecx
	movl	%ecx, %edx
	movl	%ecx, 1276(%eax)
	jmp	.L25
.L29:
	movl	%ebp, (%esp)
	jmp	.L15
	.size	make, .-make
	.p2align 4
	.type	go_on, @function
go_on:
	subl	$28, %esp
	movl	now, %edx
	testl	%edx, %edx
	je	.L45
	movl	12(%edx), %eax
	xorl	%ecx, %ecx
	testl	%eax, %eax
	sete	%cl
	movl	%ecx, %eax
	sall	$7, %eax
	addl	%ecx, %eax
	sall	$5, %eax
	addl	$tasks, %eax
	cmpl	$0, 16(%eax)
	je	.L54
	movl	16(%edx), %ecx
	testl	%ecx, %ecx
	jne	.L55
.L44:
	addl	$28, %esp
	ret
	.p2align 4,,10
	.p2align 3
.L45:
	cmpl	$0, tasks+4144
	movl	$tasks+4128, %eax
	movl	$1, %ecx
	jne	.L44
.L49:
	movl	%eax, now
	addl	$4128, %eax
	movl	%eax, tss+4
	movl	%ecx, %eax
	sall	$7, %eax
	incl	switches
	addl	%ecx, %eax
	sall	$5, %eax
	movl	tasks+4(%eax), %ecx
#APP
# 32 "kernel.c" 1
	movl %ecx, %cr3
# 0 "" 2
#NO_APP
	testl	%edx, %edx
	movl	tasks(%eax), %eax
	je	.L56
.L53:
	movl	%eax, 4(%esp)
	movl	%edx, (%esp)
	call	change_stack
.L57:
	addl	$28, %esp
	ret
	.p2align 4,,10
	.p2align 3
.L54:
	cmpl	%eax, %edx
	je	.L44
	.p2align 4,,7
	jmp	.L49
	.p2align 4,,10
	.p2align 3
.L56:
	movl	$idle_stack, %edx
	jmp	.L53
	.p2align 4,,10
	.p2align 3
.L55:
	movl	%edx, (%esp)
	xorl	%eax, %eax
	movl	%eax, now
	movl	idle_stack, %eax
	incl	switches
	movl	%eax, 4(%esp)
	call	change_stack
	jmp	.L57
	.size	go_on, .-go_on
	.section	.rodata.str1.1,"aMS",@progbits,1
.LC0:
	.string	"\n<task "
.LC1:
	.string	" ended: "
.LC2:
	.string	" code "
.LC3:
	.string	" at "
.LC4:
	.string	" address "
.LC5:
	.string	">\n"
.LC6:
	.string	"0123456789abcdef"
	.text
	.p2align 4
	.type	end, @function
end:
	pushl	%ebp
	movb	$10, %cl
	pushl	%edi
	movl	%eax, %ebp
	pushl	%esi
	movl	$1016, %edi
	pushl	%ebx
	movl	$.LC0, %esi
	subl	$28, %esp
	movl	$1021, %ebx
	movl	%edx, 8(%esp)
	.p2align 4
	.p2align 3
.L60:
	incl	%esi
	.p2align 4
	.p2align 3
.L59:
	movl	%ebx, %edx
#APP
# 15 "kernel.c" 1
	inb %dx, %al
# 0 "" 2
#NO_APP
	andb	$32, %al
	je	.L59
	movb	%cl, %al
	movl	%edi, %edx
#APP
# 10 "kernel.c" 1
	outb %al, %dx
# 0 "" 2
#NO_APP
	movzbl	(%esi), %ecx
	testb	%cl, %cl
	jne	.L60
	movl	now, %eax
	movl	$.LC1, %esi
	movl	$1021, %ebx
	movl	$1016, %edi
	movl	%eax, 12(%esp)
	movl	12(%eax), %eax
	call	put_number
	movb	$32, %cl
	.p2align 4
	.p2align 3
.L62:
	incl	%esi
	.p2align 4
	.p2align 3
.L61:
	movl	%ebx, %edx
#APP
# 15 "kernel.c" 1
	inb %dx, %al
# 0 "" 2
#NO_APP
	andb	$32, %al
	je	.L61
	movb	%cl, %al
	movl	%edi, %edx
#APP
# 10 "kernel.c" 1
	outb %al, %dx
# 0 "" 2
#NO_APP
	movzbl	(%esi), %ecx
	testb	%cl, %cl
	jne	.L62
	movzbl	0(%ebp), %ecx
	testb	%cl, %cl
	je	.L63
	movl	$1021, %ebx
	movl	$1016, %esi
	.p2align 4
	.p2align 3
.L65:
	incl	%ebp
	.p2align 4
	.p2align 3
.L64:
	movl	%ebx, %edx
#APP
# 15 "kernel.c" 1
	inb %dx, %al
# 0 "" 2
#NO_APP
	andb	$32, %al
	je	.L64
	movb	%cl, %al
	movl	%esi, %edx
#APP
# 10 "kernel.c" 1
	outb %al, %dx
# 0 "" 2
#NO_APP
	movzbl	0(%ebp), %ecx
	testb	%cl, %cl
	jne	.L65
.L63:
	movl	8(%esp), %eax
	movl	40(%eax), %ebp
	cmpl	$128, %ebp
	jne	.L117
.L82:
	movb	$62, %cl
	movl	$.LC5, %esi
	movl	$1021, %ebx
	movl	$1016, %edi
	.p2align 4
	.p2align 3
.L80:
	incl	%esi
	.p2align 4
	.p2align 3
.L79:
	movl	%ebx, %edx
#APP
# 15 "kernel.c" 1
	inb %dx, %al
# 0 "" 2
#NO_APP
	andb	$32, %al
	je	.L79
	movb	%cl, %al
	movl	%edi, %edx
#APP
# 10 "kernel.c" 1
	outb %al, %dx
# 0 "" 2
#NO_APP
	movzbl	(%esi), %ecx
	testb	%cl, %cl
	jne	.L80
	movl	12(%esp), %eax
	movl	$1, 16(%eax)
	addl	$28, %esp
	popl	%ebx
	popl	%esi
	popl	%edi
	popl	%ebp
	jmp	go_on
.L117:
	movb	$32, %cl
	movl	$.LC2, %esi
	movl	$1021, %ebx
	movl	$1016, %edi
	.p2align 4
	.p2align 3
.L68:
	incl	%esi
	.p2align 4
	.p2align 3
.L67:
	movl	%ebx, %edx
#APP
# 15 "kernel.c" 1
	inb %dx, %al
# 0 "" 2
#NO_APP
	andb	$32, %al
	je	.L67
	movb	%cl, %al
	movl	%edi, %edx
#APP
# 10 "kernel.c" 1
	outb %al, %dx
# 0 "" 2
#NO_APP
	movzbl	(%esi), %ecx
	testb	%cl, %cl
	jne	.L68
	movl	8(%esp), %eax
	movl	$28, %ecx
	movl	$1021, %ebx
	movl	$1016, %esi
	movl	44(%eax), %edi
	.p2align 4
	.p2align 3
.L70:
	movl	%edi, %eax
	shrl	%cl, %eax
	andl	$15, %eax
	movzbl	.LC6(%eax), %eax
	movb	%al, 7(%esp)
	.p2align 4
	.p2align 3
.L69:
	movl	%ebx, %edx
#APP
# 15 "kernel.c" 1
	inb %dx, %al
# 0 "" 2
#NO_APP
	andb	$32, %al
	je	.L69
	movzbl	7(%esp), %eax
	movl	%esi, %edx
#APP
# 10 "kernel.c" 1
	outb %al, %dx
# 0 "" 2
#NO_APP
	subl	$4, %ecx
	cmpl	$-4, %ecx
	jne	.L70
	movb	$32, %cl
	movl	$.LC3, %esi
	movl	$1021, %ebx
	movl	$1016, %edi
	.p2align 4
	.p2align 3
.L72:
	incl	%esi
	.p2align 4
	.p2align 3
.L71:
	movl	%ebx, %edx
#APP
# 15 "kernel.c" 1
	inb %dx, %al
# 0 "" 2
#NO_APP
	andb	$32, %al
	je	.L71
	movb	%cl, %al
	movl	%edi, %edx
#APP
# 10 "kernel.c" 1
	outb %al, %dx
# 0 "" 2
#NO_APP
	movzbl	(%esi), %ecx
	testb	%cl, %cl
	jne	.L72
	movl	8(%esp), %eax
	movl	$28, %ecx
	movl	$1021, %ebx
	movl	$1016, %esi
	movl	48(%eax), %edi
	.p2align 4
	.p2align 3
.L74:
	movl	%edi, %eax
	shrl	%cl, %eax
	andl	$15, %eax
	movzbl	.LC6(%eax), %eax
	movb	%al, 7(%esp)
	.p2align 4
	.p2align 3
.L73:
	movl	%ebx, %edx
#APP
# 15 "kernel.c" 1
	inb %dx, %al
# 0 "" 2
#NO_APP
	andb	$32, %al
	je	.L73
	movzbl	7(%esp), %eax
	movl	%esi, %edx
#APP
# 10 "kernel.c" 1
	outb %al, %dx
# 0 "" 2
#NO_APP
	subl	$4, %ecx
	cmpl	$-4, %ecx
	jne	.L74
	cmpl	$14, %ebp
	jne	.L82
	movb	$32, %cl
	movl	$.LC4, %esi
	movl	$1021, %ebx
	movl	$1016, %edi
	.p2align 4
	.p2align 3
.L76:
	incl	%esi
	.p2align 4
	.p2align 3
.L75:
	movl	%ebx, %edx
#APP
# 15 "kernel.c" 1
	inb %dx, %al
# 0 "" 2
#NO_APP
	andb	$32, %al
	je	.L75
	movb	%cl, %al
	movl	%edi, %edx
#APP
# 10 "kernel.c" 1
	outb %al, %dx
# 0 "" 2
#NO_APP
	movzbl	(%esi), %ecx
	testb	%cl, %cl
	jne	.L76
#APP
# 21 "kernel.c" 1
	movl %cr2, %edi
# 0 "" 2
#NO_APP
	movl	$28, %ecx
	movl	$1021, %ebx
	movl	$1016, %esi
	.p2align 4
	.p2align 3
.L78:
	movl	%edi, %eax
	shrl	%cl, %eax
	andl	$15, %eax
	movzbl	.LC6(%eax), %eax
	movb	%al, 7(%esp)
	.p2align 4
	.p2align 3
.L77:
	movl	%ebx, %edx
#APP
# 15 "kernel.c" 1
	inb %dx, %al
# 0 "" 2
#NO_APP
	andb	$32, %al
	je	.L77
	movzbl	7(%esp), %eax
	movl	%esi, %edx
#APP
# 10 "kernel.c" 1
	outb %al, %dx
# 0 "" 2
#NO_APP
	subl	$4, %ecx
	cmpl	$-4, %ecx
	jne	.L78
	jmp	.L82
	.size	end, .-end
	.section	.rodata.str1.1
.LC7:
	.string	"as it wanted"
.LC8:
	.string	"an unknown call"
.LC9:
	.string	"division"
.LC10:
	.string	"no instruction"
.LC11:
	.string	"protection"
.LC12:
	.string	"page fault"
	.text
	.p2align 4
	.globl	on_trap
	.type	on_trap, @function
on_trap:
	subl	$12, %esp
	movl	%ebx, (%esp)
	movl	16(%esp), %ebx
	movl	%esi, 4(%esp)
	movl	%edi, 8(%esp)
	movl	40(%ebx), %eax
	cmpl	$36, %eax
	ja	.L119
	movl	.L122(,%eax,4), %eax
	jmp	*%eax
	.section	.rodata
	.align 4
	.align 4
.L122:
	.long	.L127
	.long	.L118
	.long	.L118
	.long	.L118
	.long	.L118
	.long	.L118
	.long	.L126
	.long	.L118
	.long	.L118
	.long	.L118
	.long	.L118
	.long	.L118
	.long	.L118
	.long	.L125
	.long	.L124
	.long	.L118
	.long	.L118
	.long	.L118
	.long	.L118
	.long	.L118
	.long	.L118
	.long	.L118
	.long	.L118
	.long	.L118
	.long	.L118
	.long	.L118
	.long	.L118
	.long	.L118
	.long	.L118
	.long	.L118
	.long	.L118
	.long	.L118
	.long	.L123
	.long	.L118
	.long	.L118
	.long	.L118
	.long	.L121
	.text
	.p2align 4,,10
	.p2align 3
.L119:
	addl	$-128, %eax
	jne	.L118
	movl	now, %edx
	incl	24(%edx)
	cmpl	$4, 36(%ebx)
	ja	.L134
	movl	36(%ebx), %eax
	sall	$2, %eax
	movl	.L136(%eax), %eax
	jmp	*%eax
	.section	.rodata
	.align 4
	.align 4
.L136:
	.long	.L140
	.long	.L139
	.long	.L138
	.long	.L137
	.long	.L135
	.text
	.p2align 4,,10
	.p2align 3
.L121:
	movb	$32, %al
#APP
# 10 "kernel.c" 1
	outb %al, $32
# 0 "" 2
#NO_APP
	movl	typed_n, %ebx
	xorl	%ecx, %ecx
	movl	$1016, %edi
.L130:
	movl	$1021, %esi
	jmp	.L131
	.p2align 4,,10
	.p2align 3
.L132:
	movl	%edi, %edx
#APP
# 15 "kernel.c" 1
	inb %dx, %al
# 0 "" 2
#NO_APP
	cmpl	$15, %ebx
	jbe	.L169
.L131:
	movl	%esi, %edx
#APP
# 15 "kernel.c" 1
	inb %dx, %al
# 0 "" 2
#NO_APP
	andb	$1, %al
	jne	.L132
	testb	%cl, %cl
	je	.L118
	movl	%ebx, typed_n
.L118:
	movl	(%esp), %ebx
	movl	4(%esp), %esi
	movl	8(%esp), %edi
	addl	$12, %esp
	ret
	.p2align 4,,10
	.p2align 3
.L127:
	movl	%ebx, %edx
	movl	$.LC9, %eax
.L168:
	movl	(%esp), %ebx
	movl	4(%esp), %esi
	movl	8(%esp), %edi
	addl	$12, %esp
	jmp	end
	.p2align 4,,10
	.p2align 3
.L126:
	movl	%ebx, %edx
	movl	$.LC10, %eax
	jmp	.L168
	.p2align 4,,10
	.p2align 3
.L125:
	movl	%ebx, %edx
	movl	$.LC11, %eax
	jmp	.L168
	.p2align 4,,10
	.p2align 3
.L124:
	movl	%ebx, %edx
	movl	$.LC12, %eax
	jmp	.L168
	.p2align 4,,10
	.p2align 3
.L123:
	movb	$32, %al
#APP
# 10 "kernel.c" 1
	outb %al, $32
# 0 "" 2
#NO_APP
	movl	now, %eax
	incl	ticks
	testl	%eax, %eax
	je	.L118
	incl	20(%eax)
.L138:
	movl	(%esp), %ebx
	movl	4(%esp), %esi
	movl	8(%esp), %edi
	addl	$12, %esp
	jmp	go_on
	.p2align 4,,10
	.p2align 3
.L169:
	movb	%al, typed(%ebx)
	movb	$1, %cl
	incl	%ebx
	jmp	.L130
	.p2align 4,,10
	.p2align 3
.L137:
	movl	%ebx, %edx
	movl	$.LC7, %eax
	jmp	.L168
	.p2align 4,,10
	.p2align 3
.L139:
	movl	typed_n, %edx
	testl	%edx, %edx
	je	.L142
	movzbl	typed, %eax
	decl	%edx
	movl	%edx, typed_n
	movl	%eax, 36(%ebx)
	je	.L118
	xorl	%eax, %eax
	.p2align 4
	.p2align 3
.L143:
	movzbl	typed+1(%eax), %ecx
	incl	%eax
	cmpl	%eax, %edx
	movb	%cl, typed-1(%eax)
	jne	.L143
	jmp	.L118
	.p2align 4,,10
	.p2align 3
.L140:
	movl	24(%ebx), %ecx
	movl	$1021, %edx
	.p2align 4
	.p2align 3
.L141:
#APP
# 15 "kernel.c" 1
	inb %dx, %al
# 0 "" 2
#NO_APP
	andb	$32, %al
	je	.L141
	movl	$1016, %edx
	movb	%cl, %al
#APP
# 10 "kernel.c" 1
	outb %al, %dx
# 0 "" 2
#NO_APP
	jmp	.L118
	.p2align 4,,10
	.p2align 3
.L135:
	movl	12(%edx), %eax
	call	put_number
	movl	$1021, %edx
	.p2align 4
	.p2align 3
.L144:
#APP
# 15 "kernel.c" 1
	inb %dx, %al
# 0 "" 2
#NO_APP
	andb	$32, %al
	je	.L144
	movb	$32, %al
	movl	$1016, %edx
#APP
# 10 "kernel.c" 1
	outb %al, %dx
# 0 "" 2
#NO_APP
	movl	32(%ebx), %edx
	testl	%edx, %edx
	je	.L118
	movl	24(%ebx), %eax
	movl	$1021, %ebx
	leal	-1073741824(%eax), %esi
	addl	%edx, %eax
	leal	-1073741824(%eax), %edi
	.p2align 4
	.p2align 3
.L147:
	xorl	%ecx, %ecx
	cmpl	$268435455, %esi
	ja	.L146
	movzbl	1073741824(%esi), %ecx
	.p2align 4
	.p2align 3
.L146:
	movl	%ebx, %edx
#APP
# 15 "kernel.c" 1
	inb %dx, %al
# 0 "" 2
#NO_APP
	andb	$32, %al
	je	.L146
	movl	$1016, %edx
	movb	%cl, %al
#APP
# 10 "kernel.c" 1
	outb %al, %dx
# 0 "" 2
#NO_APP
	incl	%esi
	cmpl	%edi, %esi
	jne	.L147
	jmp	.L118
.L134:
	movl	%ebx, %edx
	movl	$.LC8, %eax
	jmp	.L168
.L142:
	movl	$-1, 36(%ebx)
	jmp	.L118
	.size	on_trap, .-on_trap
	.section	.rodata.str1.1
.LC13:
	.string	"memory "
.LC14:
	.string	" MB, free from "
.LC15:
	.string	"\nall over; ticks seen "
.LC16:
	.string	"more than three"
.LC17:
	.string	"too few"
.LC18:
	.string	", calls "
	.text
	.p2align 4
	.globl	kernel_main
	.type	kernel_main, @function
kernel_main:
	pushl	%ebp
	movl	$1019, %ecx
	pushl	%edi
	movb	$-125, %al
	pushl	%esi
	movl	%ecx, %edx
	pushl	%ebx
	subl	$60, %esp
	movl	84(%esp), %ebp
	movl	%ebp, next_frame
#APP
# 10 "kernel.c" 1
	outb %al, %dx
# 0 "" 2
#NO_APP
	movb	$1, %al
	movl	$1016, %edx
#APP
# 10 "kernel.c" 1
	outb %al, %dx
# 0 "" 2
#NO_APP
	xorl	%eax, %eax
	movl	$1017, %edx
#APP
# 10 "kernel.c" 1
	outb %al, %dx
# 0 "" 2
#NO_APP
	movb	$3, %al
	movl	%ecx, %edx
#APP
# 10 "kernel.c" 1
	outb %al, %dx
# 0 "" 2
#NO_APP
	movb	$109, %cl
	movl	$.LC13, %esi
	movl	$1021, %ebx
	movl	$1016, %edi
	.p2align 4
	.p2align 3
.L172:
	incl	%esi
	.p2align 4
	.p2align 3
.L171:
	movl	%ebx, %edx
#APP
# 15 "kernel.c" 1
	inb %dx, %al
# 0 "" 2
#NO_APP
	andb	$32, %al
	je	.L171
	movb	%cl, %al
	movl	%edi, %edx
#APP
# 10 "kernel.c" 1
	outb %al, %dx
# 0 "" 2
#NO_APP
	movzbl	(%esi), %ecx
	testb	%cl, %cl
	jne	.L172
	movl	80(%esp), %eax
	movl	$.LC14, %esi
	movl	$1021, %ebx
	movl	$1016, %edi
	shrl	$20, %eax
	call	put_number
	movb	$32, %cl
	.p2align 4
	.p2align 3
.L174:
	incl	%esi
	.p2align 4
	.p2align 3
.L173:
	movl	%ebx, %edx
#APP
# 15 "kernel.c" 1
	inb %dx, %al
# 0 "" 2
#NO_APP
	andb	$32, %al
	je	.L173
	movb	%cl, %al
	movl	%edi, %edx
#APP
# 10 "kernel.c" 1
	outb %al, %dx
# 0 "" 2
#NO_APP
	movzbl	(%esi), %ecx
	testb	%cl, %cl
	jne	.L174
	movl	$28, %ecx
	movl	$1021, %ebx
	movl	$1016, %esi
	.p2align 4
	.p2align 3
.L176:
	movl	%ebp, %eax
	shrl	%cl, %eax
	andl	$15, %eax
	movzbl	.LC6(%eax), %eax
	movb	%al, 31(%esp)
	.p2align 4
	.p2align 3
.L175:
	movl	%ebx, %edx
#APP
# 15 "kernel.c" 1
	inb %dx, %al
# 0 "" 2
#NO_APP
	andb	$32, %al
	je	.L175
	movzbl	31(%esp), %eax
	movl	%esi, %edx
#APP
# 10 "kernel.c" 1
	outb %al, %dx
# 0 "" 2
#NO_APP
	subl	$4, %ecx
	cmpl	$-4, %ecx
	jne	.L176
	movl	$1021, %edx
	.p2align 4
	.p2align 3
.L177:
#APP
# 15 "kernel.c" 1
	inb %dx, %al
# 0 "" 2
#NO_APP
	andb	$32, %al
	je	.L177
	movb	$10, %al
	movl	$1016, %edx
#APP
# 10 "kernel.c" 1
	outb %al, %dx
# 0 "" 2
#NO_APP
	movl	$13603328, %eax
	movl	$tss, %edx
	movl	%eax, gdt+20
	movl	$65535, %eax
	movl	$65535, %esi
	movl	%eax, gdt+24
	movl	$13629952, %eax
	movl	$13605376, %edi
	movl	%eax, gdt+28
	movl	$65535, %eax
	movl	$65535, %ebp
	movl	%eax, gdt+32
	movl	$13627904, %eax
	movl	$gdt, %ecx
	movl	%eax, gdt+36
	movl	%edx, %eax
	movl	%esi, gdt+8
	sall	$16, %eax
	movl	%edi, gdt+12
	orl	$103, %eax
	movl	%eax, gdt+40
	movl	%edx, %eax
	andl	$-16777216, %edx
	movl	%ebp, gdt+16
	shrl	$16, %eax
	movw	$47, 42(%esp)
	movzbl	%al, %eax
	movl	%ecx, 44(%esp)
	orl	%edx, %eax
	movl	$16, %edx
	movl	%edx, tss+8
	leal	42(%esp), %edx
	orl	$35072, %eax
	movl	%eax, gdt+44
#APP
# 138 "kernel.c" 1
	lgdt (%edx)
# 0 "" 2
#NO_APP
	movw	$2047, 42(%esp)
	movl	$on_divide, %eax
	movl	$idt, %ebx
	movl	%ebx, 44(%esp)
	movzwl	%ax, %ecx
	andl	$-65536, %eax
	orl	$36352, %eax
	orl	$524288, %ecx
	movl	%eax, idt+4
	movl	$on_opcode, %eax
	movl	%ecx, idt
	movzwl	%ax, %ecx
	andl	$-65536, %eax
	orl	$36352, %eax
	orl	$524288, %ecx
	movl	%eax, idt+52
	movl	$on_protection, %eax
	movl	%ecx, idt+48
	movzwl	%ax, %ecx
	andl	$-65536, %eax
	orl	$36352, %eax
	orl	$524288, %ecx
	movl	%eax, idt+108
	movl	$on_page, %eax
	movl	%ecx, idt+104
	movzwl	%ax, %ecx
	andl	$-65536, %eax
	orl	$36352, %eax
	orl	$524288, %ecx
	movl	%eax, idt+116
	movl	$on_timer, %eax
	movl	%ecx, idt+112
	movzwl	%ax, %ecx
	andl	$-65536, %eax
	orl	$36352, %eax
	orl	$524288, %ecx
	movl	%eax, idt+260
	movl	$on_serial, %eax
	movl	%ecx, idt+256
	movzwl	%ax, %ecx
	andl	$-65536, %eax
	orl	$36352, %eax
	orl	$524288, %ecx
	movl	%eax, idt+292
	movl	$on_call, %eax
	movl	%ecx, idt+288
	movzwl	%ax, %ecx
	andl	$-65536, %eax
	orl	$60928, %eax
	orl	$524288, %ecx
	movl	%eax, idt+1028
	movl	$on_spurious_master, %eax
	movl	%ecx, idt+1024
	movzwl	%ax, %ecx
	andl	$-65536, %eax
	orl	$36352, %eax
	orl	$524288, %ecx
	movl	%eax, idt+316
	movl	$on_spurious_slave, %eax
	movl	%ecx, idt+312
	movzwl	%ax, %ecx
	andl	$-65536, %eax
	orl	$524288, %ecx
	orl	$36352, %eax
	movl	%ecx, idt+376
	movl	%eax, idt+380
#APP
# 140 "kernel.c" 1
	lidt (%edx)
# 0 "" 2
#NO_APP
	movl	$40, %eax
#APP
# 171 "kernel.c" 1
	ltr %ax
# 0 "" 2
#NO_APP
	xorl	%edx, %edx
	movl	$tasks, %eax
	call	make
	movl	$1, %edx
	movl	$tasks+4128, %eax
	call	make
	movb	$17, %dl
	movb	%dl, %al
#APP
# 10 "kernel.c" 1
	outb %al, $32
# 0 "" 2
#NO_APP
	movb	$32, %al
#APP
# 10 "kernel.c" 1
	outb %al, $33
# 0 "" 2
#NO_APP
	movb	$4, %al
#APP
# 10 "kernel.c" 1
	outb %al, $33
# 0 "" 2
#NO_APP
	movb	$1, %cl
	movb	%cl, %al
#APP
# 10 "kernel.c" 1
	outb %al, $33
# 0 "" 2
#NO_APP
	movb	%dl, %al
#APP
# 10 "kernel.c" 1
	outb %al, $160
# 0 "" 2
#NO_APP
	movb	$40, %al
#APP
# 10 "kernel.c" 1
	outb %al, $161
# 0 "" 2
#NO_APP
	movb	$2, %al
#APP
# 10 "kernel.c" 1
	outb %al, $161
# 0 "" 2
#NO_APP
	movb	%cl, %al
#APP
# 10 "kernel.c" 1
	outb %al, $161
# 0 "" 2
#NO_APP
	movb	$-18, %al
#APP
# 10 "kernel.c" 1
	outb %al, $33
# 0 "" 2
#NO_APP
	movb	$-1, %al
#APP
# 10 "kernel.c" 1
	outb %al, $161
# 0 "" 2
#NO_APP
	movl	$1017, %edx
	movb	%cl, %al
#APP
# 10 "kernel.c" 1
	outb %al, %dx
# 0 "" 2
#NO_APP
	movb	$52, %al
#APP
# 10 "kernel.c" 1
	outb %al, $67
# 0 "" 2
#NO_APP
	movb	$-112, %al
#APP
# 10 "kernel.c" 1
	outb %al, $64
# 0 "" 2
#NO_APP
	movb	%cl, %al
#APP
# 10 "kernel.c" 1
	outb %al, $64
# 0 "" 2
#NO_APP
	movl	now, %eax
	cmpl	$tasks, %eax
	je	.L178
	movl	$tasks, %ecx
	movl	$tasks+4128, %ebx
	movl	tasks+4, %edx
	incl	switches
	movl	%ecx, now
	movl	%ebx, tss+4
#APP
# 32 "kernel.c" 1
	movl %edx, %cr3
# 0 "" 2
#NO_APP
	testl	%eax, %eax
	movl	tasks, %edx
	je	.L216
.L179:
	movl	%edx, 4(%esp)
	movl	%eax, (%esp)
	call	change_stack
.L178:
	movb	$10, %cl
	movl	$.LC15, %esi
	movl	$1021, %ebx
	movl	$1016, %edi
	.p2align 4
	.p2align 3
.L181:
	incl	%esi
	.p2align 4
	.p2align 3
.L180:
	movl	%ebx, %edx
#APP
# 15 "kernel.c" 1
	inb %dx, %al
# 0 "" 2
#NO_APP
	andb	$32, %al
	je	.L180
	movb	%cl, %al
	movl	%edi, %edx
#APP
# 10 "kernel.c" 1
	outb %al, %dx
# 0 "" 2
#NO_APP
	movzbl	(%esi), %ecx
	testb	%cl, %cl
	jne	.L181
	cmpl	$3, ticks
	jbe	.L189
	movb	$109, %cl
	movl	$.LC16, %esi
.L182:
	movl	$1021, %ebx
	movl	$1016, %edi
	.p2align 4
	.p2align 3
.L184:
	incl	%esi
	.p2align 4
	.p2align 3
.L183:
	movl	%ebx, %edx
#APP
# 15 "kernel.c" 1
	inb %dx, %al
# 0 "" 2
#NO_APP
	andb	$32, %al
	je	.L183
	movb	%cl, %al
	movl	%edi, %edx
#APP
# 10 "kernel.c" 1
	outb %al, %dx
# 0 "" 2
#NO_APP
	movzbl	(%esi), %ecx
	testb	%cl, %cl
	jne	.L184
	movb	$44, %cl
	movl	$.LC18, %esi
	movl	$1021, %ebx
	movl	$1016, %edi
	.p2align 4
	.p2align 3
.L186:
	incl	%esi
	.p2align 4
	.p2align 3
.L185:
	movl	%ebx, %edx
#APP
# 15 "kernel.c" 1
	inb %dx, %al
# 0 "" 2
#NO_APP
	andb	$32, %al
	je	.L185
	movb	%cl, %al
	movl	%edi, %edx
#APP
# 10 "kernel.c" 1
	outb %al, %dx
# 0 "" 2
#NO_APP
	movzbl	(%esi), %ecx
	testb	%cl, %cl
	jne	.L186
	movl	tasks+24, %edx
	movl	tasks+4152, %eax
	addl	%edx, %eax
	call	put_number
	movl	$1021, %edx
	.p2align 4
	.p2align 3
.L187:
#APP
# 15 "kernel.c" 1
	inb %dx, %al
# 0 "" 2
#NO_APP
	andb	$32, %al
	je	.L187
	movb	$10, %al
	movl	$1016, %edx
#APP
# 10 "kernel.c" 1
	outb %al, %dx
# 0 "" 2
#NO_APP
	addl	$60, %esp
	popl	%ebx
	popl	%esi
	popl	%edi
	popl	%ebp
	ret
.L189:
	movb	$116, %cl
	movl	$.LC17, %esi
	jmp	.L182
.L216:
	movl	$idle_stack, %eax
	jmp	.L179
	.size	kernel_main, .-kernel_main
	.local	typed_n
	.comm	typed_n,4,4
	.local	typed
	.comm	typed,16,4
	.local	switches
	.comm	switches,4,4
	.local	ticks
	.comm	ticks,4,4
	.local	next_frame
	.comm	next_frame,4,4
	.local	idt
	.comm	idt,2048,8
	.local	gdt
	.comm	gdt,48,8
	.local	tss
	.comm	tss,104,32
	.local	idle_stack
	.comm	idle_stack,4,4
	.local	now
	.comm	now,4,4
	.local	tasks
	.comm	tasks,8256,32
	.ident	"GCC: (Debian 12.2.0-14+deb12u1) 12.2.0"
	.section	.note.GNU-stack,"",@progbits
