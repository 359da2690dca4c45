	.file	"k.c"
	.text
	.p2align 4
	.type	div64, @function
div64:
	pushl	%ebp
	movl	%eax, %ecx
	pushl	%edi
	pushl	%esi
	pushl	%ebx
	subl	$20, %esp
	movl	44(%esp), %ebp
	movl	40(%esp), %edi
	movl	48(%esp), %esi
	movl	%ebp, 4(%esp)
	movl	%eax, %ebp
	movl	%edi, (%esp)
	movl	4(%esp), %eax
	testl	%eax, %eax
	je	.L9
	xorl	%eax, %eax
	xorl	%ecx, %ecx
	movl	%eax, 12(%esp)
	movl	$32, %ebx
	movl	%esi, 48(%esp)
	.p2align 4
	.p2align 3
.L5:
	movl	(%esp), %eax
	leal	(%ecx,%ecx), %edi
	movl	%ebp, %esi
	movl	%edx, %ecx
	addl	%edx, %edx
	shrl	$31, %esi
	addl	%ebp, %ebp
	shrl	$31, %ecx
	orl	%esi, %edx
	orl	%edi, %ecx
	movl	%edx, %esi
	sall	12(%esp)
	cmpl	%eax, %edx
	movl	%ecx, %eax
	movl	%ecx, %edi
	sbbl	4(%esp), %eax
	jc	.L4
	subl	(%esp), %esi
	sbbl	4(%esp), %edi
	orl	$1, 12(%esp)
	movl	%esi, %edx
	movl	%edi, %ecx
.L4:
	decl	%ebx
	jne	.L5
	movl	48(%esp), %esi
	movl	12(%esp), %eax
	movl	%edx, (%esi)
	xorl	%edx, %edx
	movl	%ecx, 4(%esi)
	addl	$20, %esp
	popl	%ebx
	popl	%esi
	popl	%edi
	popl	%ebp
	ret
	.p2align 4,,10
	.p2align 3
.L9:
	movl	$0, 4(%esi)
	movl	(%esp), %edi
	movl	%edx, %eax
	xorl	%edx, %edx
	divl	%edi
	movl	%eax, %ebx
	movl	%ecx, %eax
#APP
# 241 "k.c" 1
	divl %edi
# 0 "" 2
#NO_APP
	movl	%edx, (%esi)
	addl	$20, %esp
	movl	%ebx, %edx
	popl	%ebx
	popl	%esi
	popl	%edi
	popl	%ebp
	ret
	.size	div64, .-div64
	.p2align 4
	.globl	put
	.type	put, @function
put:
	subl	$28, %esp
	movl	%ebx, 24(%esp)
	movl	32(%esp), %ebx
	movsbl	(%ebx), %eax
	testb	%al, %al
	je	.L10
	.p2align 4
	.p2align 3
.L12:
	movl	%eax, (%esp)
	incl	%ebx
	call	putch
	movsbl	(%ebx), %eax
	testb	%al, %al
	jne	.L12
.L10:
	movl	24(%esp), %ebx
	addl	$28, %esp
	ret
	.size	put, .-put
	.p2align 4
	.globl	memcpy
	.type	memcpy, @function
memcpy:
	pushl	%esi
	pushl	%ebx
	movl	20(%esp), %ecx
	movl	12(%esp), %esi
	movl	16(%esp), %edx
	testl	%ecx, %ecx
	je	.L19
	addl	%esi, %ecx
	movl	%esi, %eax
	.p2align 4
	.p2align 3
.L20:
	movzbl	(%edx), %ebx
	incl	%eax
	incl	%edx
	cmpl	%ecx, %eax
	movb	%bl, -1(%eax)
	jne	.L20
.L19:
	popl	%ebx
	movl	%esi, %eax
	popl	%esi
	ret
	.size	memcpy, .-memcpy
	.p2align 4
	.globl	memmove
	.type	memmove, @function
memmove:
	pushl	%esi
	pushl	%ebx
	movl	12(%esp), %ebx
	movl	16(%esp), %edx
	movl	20(%esp), %eax
	cmpl	%edx, %ebx
	jnb	.L27
	testl	%eax, %eax
	movl	%ebx, %ecx
	leal	(%ebx,%eax), %esi
	je	.L33
	.p2align 4
	.p2align 3
.L29:
	movzbl	(%edx), %eax
	incl	%ecx
	incl	%edx
	cmpl	%ecx, %esi
	movb	%al, -1(%ecx)
	jne	.L29
.L33:
	movl	%ebx, %eax
	popl	%ebx
	popl	%esi
	ret
	.p2align 4,,10
	.p2align 3
.L27:
	testl	%eax, %eax
	je	.L33
	decl	%eax
	.p2align 4
	.p2align 3
.L31:
	movzbl	(%edx,%eax), %ecx
	movb	%cl, (%ebx,%eax)
	subl	$1, %eax
	jnb	.L31
	movl	%ebx, %eax
	popl	%ebx
	popl	%esi
	ret
	.size	memmove, .-memmove
	.p2align 4
	.globl	memset
	.type	memset, @function
memset:
	pushl	%ebx
	movl	16(%esp), %edx
	movl	8(%esp), %ebx
	testl	%edx, %edx
	je	.L45
	movzbl	12(%esp), %ecx
	addl	%ebx, %edx
	movl	%ebx, %eax
	.p2align 4
	.p2align 3
.L42:
	movb	%cl, (%eax)
	incl	%eax
	cmpl	%edx, %eax
	jne	.L42
.L45:
	movl	%ebx, %eax
	popl	%ebx
	ret
	.size	memset, .-memset
	.p2align 4
	.globl	memcmp
	.type	memcmp, @function
memcmp:
	pushl	%esi
	pushl	%ebx
	movl	20(%esp), %esi
	movl	12(%esp), %edx
	movl	16(%esp), %eax
	testl	%esi, %esi
	je	.L51
	addl	%eax, %esi
	jmp	.L50
	.p2align 4,,10
	.p2align 3
.L49:
	incl	%eax
	incl	%edx
	cmpl	%esi, %eax
	je	.L51
.L50:
	movzbl	(%edx), %ecx
	movzbl	(%eax), %ebx
	cmpb	%bl, %cl
	je	.L49
	movzbl	%cl, %eax
	subl	%ebx, %eax
	popl	%ebx
	popl	%esi
	ret
	.p2align 4,,10
	.p2align 3
.L51:
	popl	%ebx
	xorl	%eax, %eax
	popl	%esi
	ret
	.size	memcmp, .-memcmp
	.p2align 4
	.globl	memchr
	.type	memchr, @function
memchr:
	movl	12(%esp), %edx
	movl	4(%esp), %eax
	testl	%edx, %edx
	je	.L57
	movzbl	8(%esp), %ecx
	addl	%eax, %edx
	jmp	.L56
	.p2align 4,,10
	.p2align 3
.L59:
	incl	%eax
	cmpl	%eax, %edx
	je	.L57
.L56:
	cmpb	%cl, (%eax)
	jne	.L59
	.p2align 4,,6
	ret
	.p2align 4,,10
	.p2align 3
.L57:
	xorl	%eax, %eax
	.p2align 4,,8
	ret
	.size	memchr, .-memchr
	.p2align 4
	.globl	strlen
	.type	strlen, @function
strlen:
	movl	4(%esp), %edx
	cmpb	$0, (%edx)
	je	.L63
	movl	%edx, %eax
	.p2align 4
	.p2align 3
.L62:
	incl	%eax
	cmpb	$0, (%eax)
	jne	.L62
	subl	%edx, %eax
	ret
	.p2align 4,,10
	.p2align 3
.L63:
	xorl	%eax, %eax
	ret
	.size	strlen, .-strlen
	.p2align 4
	.globl	strcmp
	.type	strcmp, @function
strcmp:
	pushl	%ebx
	movl	8(%esp), %edx
	movl	12(%esp), %ebx
	movzbl	(%edx), %eax
	testb	%al, %al
	jne	.L66
	jmp	.L72
	.p2align 4,,10
	.p2align 3
.L68:
	movzbl	1(%edx), %eax
	leal	1(%ebx), %ecx
	incl	%edx
	testb	%al, %al
	je	.L73
	movl	%ecx, %ebx
.L66:
	movzbl	(%ebx), %ecx
	cmpb	%al, %cl
	je	.L68
.L67:
	popl	%ebx
	subl	%ecx, %eax
	ret
	.p2align 4,,10
	.p2align 3
.L73:
	movzbl	1(%ebx), %ecx
	xorl	%eax, %eax
	popl	%ebx
	subl	%ecx, %eax
	ret
.L72:
	movzbl	(%ebx), %ecx
	xorl	%eax, %eax
	jmp	.L67
	.size	strcmp, .-strcmp
	.p2align 4
	.globl	strncmp
	.type	strncmp, @function
strncmp:
	pushl	%ebx
	movl	16(%esp), %edx
	movl	8(%esp), %eax
	movl	12(%esp), %ecx
	testl	%edx, %edx
	jne	.L75
	jmp	.L79
	.p2align 4,,10
	.p2align 3
.L85:
	cmpb	(%ecx), %bl
	jne	.L77
	incl	%eax
	incl	%ecx
	decl	%edx
	.p2align 4,,6
	je	.L79
.L75:
	movzbl	(%eax), %ebx
	testb	%bl, %bl
	jne	.L85
.L77:
	movzbl	(%eax), %eax
	movzbl	(%ecx), %edx
	popl	%ebx
	subl	%edx, %eax
	ret
	.p2align 4,,10
	.p2align 3
.L79:
	popl	%ebx
	xorl	%eax, %eax
	ret
	.size	strncmp, .-strncmp
	.p2align 4
	.globl	strcpy
	.type	strcpy, @function
strcpy:
	pushl	%ebx
	xorl	%eax, %eax
	movl	8(%esp), %ecx
	movl	12(%esp), %ebx
	.p2align 4
	.p2align 3
.L87:
	movzbl	(%ebx,%eax), %edx
	movb	%dl, (%ecx,%eax)
	incl	%eax
	testb	%dl, %dl
	jne	.L87
	popl	%ebx
	movl	%ecx, %eax
	ret
	.size	strcpy, .-strcpy
	.p2align 4
	.globl	strchr
	.type	strchr, @function
strchr:
	movl	4(%esp), %eax
	movzbl	8(%esp), %ecx
	movzbl	(%eax), %edx
	cmpb	%cl, %dl
	jne	.L92
	jmp	.L90
	.p2align 4,,10
	.p2align 3
.L97:
	movzbl	1(%eax), %edx
	incl	%eax
	cmpb	%cl, %dl
	je	.L96
.L92:
	testb	%dl, %dl
	.p2align 4,,2
	jne	.L97
	xorl	%eax, %eax
.L90:
	ret
	.p2align 4,,10
	.p2align 3
.L96:
	ret
	.size	strchr, .-strchr
	.section	.rodata.str1.1,"aMS",@progbits,1
.LC0:
	.string	"(null)"
.LC1:
	.string	"0123456789ABCDEF"
.LC2:
	.string	"0123456789abcdef"
	.globl	__umoddi3
	.globl	__udivdi3
	.text
	.p2align 4
	.globl	kvformat
	.type	kvformat, @function
kvformat:
	pushl	%ebp
	pushl	%edi
	pushl	%esi
	pushl	%ebx
	subl	$156, %esp
	movl	184(%esp), %edx
	movzbl	(%edx), %eax
	testb	%al, %al
	je	.L164
	xorl	%ecx, %ecx
	movl	180(%esp), %edi
	movl	%ecx, 24(%esp)
	jmp	.L158
	.p2align 4,,10
	.p2align 3
.L100:
	movl	24(%esp), %esi
	leal	1(%esi), %ecx
	cmpl	%edi, %ecx
	jnb	.L102
	movl	176(%esp), %ebx
	movb	%al, (%ebx,%esi)
.L102:
	movl	%ecx, 24(%esp)
	movl	%edx, %ebp
.L103:
	movzbl	1(%ebp), %eax
	leal	1(%ebp), %edx
	testb	%al, %al
	je	.L239
.L158:
	cmpb	$37, %al
	jne	.L100
	movsbl	1(%edx), %eax
	leal	1(%edx), %ebp
	xorl	%esi, %esi
	movl	%esi, 28(%esp)
	xorl	%edx, %edx
	cmpb	$45, %al
	je	.L165
	.p2align 4
	.p2align 3
.L240:
	cmpb	$48, %al
	jne	.L105
	movl	$1, %edx
	incl	%ebp
.L241:
	movsbl	0(%ebp), %eax
	cmpb	$45, %al
	jne	.L240
.L165:
	movl	$1, %ebx
	incl	%ebp
	movl	%ebx, 28(%esp)
	jmp	.L241
	.p2align 4,,10
	.p2align 3
.L105:
	movl	%edx, 68(%esp)
	cmpb	$42, %al
	jne	.L242
	movl	188(%esp), %eax
	leal	1(%ebp), %edx
	leal	4(%eax), %ecx
	movl	(%eax), %eax
	movl	%ecx, 188(%esp)
	movl	%eax, 52(%esp)
	movzbl	1(%ebp), %eax
	movl	%edx, %ebp
.L108:
	movl	$-1, %esi
	cmpb	$46, %al
	movl	%esi, 44(%esp)
	je	.L243
.L109:
	movb	%al, %dl
	xorl	%ecx, %ecx
	andb	$-5, %dl
	cmpb	$104, %dl
	sete	%dl
	testb	%dl, %dl
	je	.L238
	.p2align 4
	.p2align 3
.L219:
	cmpb	$108, %al
	sete	%al
	incl	%ebp
	movzbl	%al, %eax
	addl	%eax, %ecx
	movzbl	0(%ebp), %eax
	movb	%al, %dl
	andb	$-5, %dl
	cmpb	$104, %dl
	sete	%dl
	testb	%dl, %dl
	jne	.L219
.L238:
	cmpb	$122, %al
	sete	%dl
	testb	%dl, %dl
	jne	.L219
	cmpb	$99, %al
	je	.L244
	cmpb	$115, %al
	je	.L245
	cmpb	$37, %al
	.p2align 4,,5
	jne	.L124
	movb	$37, 80(%esp)
	leal	80(%esp), %esi
	movl	$1, %edx
.L116:
	movl	28(%esp), %ecx
	testl	%ecx, %ecx
	je	.L162
.L147:
	movl	%ebp, 32(%esp)
	movl	24(%esp), %ebx
	xorl	%eax, %eax
	leal	1(%ebx), %ecx
	addl	176(%esp), %ebx
	movl	%ecx, %ebp
	.p2align 4
	.p2align 3
.L153:
	leal	0(%ebp,%eax), %ecx
	cmpl	%edi, %ecx
	jnb	.L152
	movzbl	(%esi,%eax), %ecx
	movb	%cl, (%ebx,%eax)
.L152:
	incl	%eax
	cmpl	%eax, %edx
	jg	.L153
	xorl	%eax, %eax
	testl	%edx, %edx
	movl	32(%esp), %ebp
	jle	.L155
	leal	-1(%edx), %eax
.L155:
	incl	%eax
	addl	%eax, 24(%esp)
	movl	28(%esp), %eax
	testl	%eax, %eax
	je	.L103
	movl	24(%esp), %eax
.L163:
	movl	52(%esp), %esi
	cmpl	%edx, %esi
	jle	.L103
	subl	%edx, %esi
	movl	176(%esp), %ecx
	addl	%esi, 24(%esp)
	movl	24(%esp), %edx
	.p2align 4
	.p2align 3
.L157:
	incl	%eax
	cmpl	%edi, %eax
	jnb	.L156
	movb	$32, -1(%ecx,%eax)
.L156:
	cmpl	%edx, %eax
	jne	.L157
	movzbl	1(%ebp), %eax
	leal	1(%ebp), %edx
	testb	%al, %al
	jne	.L158
	.p2align 4
	.p2align 3
.L239:
	movl	24(%esp), %ecx
	movl	%ecx, %eax
.L99:
	movl	180(%esp), %esi
	testl	%esi, %esi
	je	.L98
	cmpl	180(%esp), %ecx
	jnb	.L246
.L160:
	movl	176(%esp), %edi
	movb	$0, (%edi,%ecx)
.L98:
	addl	$156, %esp
	popl	%ebx
	popl	%esi
	popl	%edi
	popl	%ebp
	ret
	.p2align 4,,10
	.p2align 3
.L242:
	movb	%al, %dl
	xorl	%ecx, %ecx
	movl	%ecx, 52(%esp)
	subb	$48, %dl
	xorl	%ecx, %ecx
	cmpb	$9, %dl
	ja	.L108
	.p2align 4
	.p2align 3
.L107:
	leal	0(,%ecx,4), %edx
	incl	%ebp
	addl	%ecx, %edx
	addl	%edx, %edx
	addl	%edx, %eax
	leal	-48(%eax), %ecx
	movsbl	0(%ebp), %eax
	movb	%al, %dl
	subb	$48, %dl
	cmpb	$9, %dl
	jbe	.L107
	movl	%ecx, 52(%esp)
	movl	$-1, %esi
	cmpb	$46, %al
	movl	%esi, 44(%esp)
	jne	.L109
.L243:
	movsbl	1(%ebp), %eax
	cmpb	$42, %al
	jne	.L247
	movl	188(%esp), %eax
	leal	2(%ebp), %edx
	leal	4(%eax), %ecx
	movl	(%eax), %eax
	movl	%ecx, 188(%esp)
	movl	%eax, 44(%esp)
	movzbl	2(%ebp), %eax
	movl	%edx, %ebp
	jmp	.L109
	.p2align 4,,10
	.p2align 3
.L244:
	movl	188(%esp), %eax
	leal	80(%esp), %esi
	movl	28(%esp), %ecx
	leal	4(%eax), %edx
	movl	(%eax), %eax
	movl	%edx, 188(%esp)
	testl	%ecx, %ecx
	movl	$1, %edx
	movb	%al, 80(%esp)
	jne	.L147
.L162:
	movl	52(%esp), %eax
	cmpl	%eax, %edx
	jge	.L148
	movl	24(%esp), %ecx
	movl	176(%esp), %ebx
	addl	%ecx, %eax
	subl	%edx, %eax
	.p2align 4
	.p2align 3
.L150:
	incl	%ecx
	cmpl	%edi, %ecx
	jnb	.L149
	movb	$32, -1(%ebx,%ecx)
.L149:
	cmpl	%eax, %ecx
	jne	.L150
	movl	%ecx, 24(%esp)
	testl	%edx, %edx
	jne	.L147
	jmp	.L103
	.p2align 4,,10
	.p2align 3
.L124:
	movb	%al, %dl
	andb	$-33, %dl
	cmpb	$88, %dl
	setne	%dl
	testb	%dl, %dl
	je	.L172
	cmpb	$112, %al
	setne	%dl
	testb	%dl, %dl
	jne	.L248
.L172:
	movl	$16, %esi
	decl	%ecx
	movl	%esi, 48(%esp)
	jle	.L127
.L161:
	movl	188(%esp), %esi
	movl	188(%esp), %eax
	movl	(%esi), %ebx
	movl	4(%esi), %esi
	addl	$8, %eax
	movl	%eax, 188(%esp)
	movl	%ebx, 32(%esp)
	movl	%esi, 36(%esp)
.L128:
	movzbl	0(%ebp), %edx
	cmpb	$100, %dl
	sete	%al
	testb	%al, %al
	jne	.L185
	cmpb	$105, %dl
	sete	%al
	xorl	%ecx, %ecx
	movl	%ecx, 72(%esp)
	testb	%al, %al
	jne	.L185
.L133:
	cmpb	$88, %dl
	movl	$.LC2, %ecx
	jne	.L132
	movl	$.LC1, %ecx
.L132:
	movl	36(%esp), %eax
	orl	$0, %eax
	je	.L131
	movl	%ebp, 76(%esp)
	movl	48(%esp), %eax
	xorl	%esi, %esi
	movl	%ecx, 64(%esp)
	movl	%esi, %ebp
	movl	%edi, 180(%esp)
	movl	%eax, 56(%esp)
	xorl	%eax, %eax
	movl	%eax, 60(%esp)
	leal	111(%esp), %eax
	movl	%eax, 40(%esp)
	.p2align 4
	.p2align 3
.L139:
	movl	40(%esp), %eax
	incl	%ebp
	movl	56(%esp), %esi
	movl	60(%esp), %edi
	movl	36(%esp), %edx
	leal	(%eax,%ebp), %ebx
	movl	32(%esp), %eax
	movl	%esi, 8(%esp)
	movl	%edi, 12(%esp)
	movl	%edx, 4(%esp)
	movl	%eax, (%esp)
	call	__umoddi3
	movl	64(%esp), %ecx
	movl	36(%esp), %edx
	addl	%ecx, %eax
	movzbl	(%eax), %eax
	movb	%al, (%ebx)
	movl	32(%esp), %eax
	movl	%edx, %ebx
	movl	%esi, 8(%esp)
	movl	36(%esp), %edx
	movl	%edi, 12(%esp)
	movl	%eax, 48(%esp)
	movl	32(%esp), %eax
	movl	%edx, 4(%esp)
	movl	%eax, (%esp)
	call	__udivdi3
	cmpl	%esi, 48(%esp)
	sbbl	%edi, %ebx
	movl	%eax, 32(%esp)
	movl	%edx, 36(%esp)
	jnc	.L139
	movl	%ebp, %esi
	movl	180(%esp), %edi
	movl	76(%esp), %ebp
.L140:
	movl	44(%esp), %eax
	cmpl	%eax, %esi
	jge	.L249
	leal	112(%esp), %edx
	leal	(%edx,%esi), %eax
	movl	44(%esp), %esi
	leal	(%edx,%esi), %ecx
	.p2align 4
	.p2align 3
.L141:
	movb	$48, (%eax)
	incl	%eax
	cmpl	%eax, %ecx
	jne	.L141
	movl	72(%esp), %esi
	testl	%esi, %esi
	jne	.L177
	movl	44(%esp), %esi
	xorl	%ebx, %ebx
.L143:
	movl	%ebx, 32(%esp)
	leal	80(%esp), %ecx
	decl	%esi
	leal	(%edx,%esi), %eax
	addl	%ebx, %ecx
	.p2align 4
	.p2align 3
.L146:
	movzbl	(%eax), %ebx
	incl	%ecx
	movb	%bl, -1(%ecx)
	movl	%eax, %ebx
	decl	%eax
	cmpl	%ebx, %edx
	jne	.L146
	movl	32(%esp), %ebx
	leal	1(%ebx), %edx
	addl	%esi, %edx
	leal	80(%esp), %esi
	jmp	.L116
.L247:
	movb	%al, %dl
	xorl	%ebx, %ebx
	subb	$48, %dl
	incl	%ebp
	movl	%ebx, 44(%esp)
	xorl	%ecx, %ecx
	cmpb	$9, %dl
	ja	.L109
	.p2align 4
	.p2align 3
.L111:
	leal	0(,%ecx,4), %edx
	incl	%ebp
	addl	%ecx, %edx
	addl	%edx, %edx
	addl	%edx, %eax
	leal	-48(%eax), %ecx
	movsbl	0(%ebp), %eax
	movb	%al, %dl
	subb	$48, %dl
	cmpb	$9, %dl
	jbe	.L111
	movl	%ecx, 44(%esp)
	jmp	.L109
.L246:
	movl	180(%esp), %edi
	leal	-1(%edi), %ecx
	jmp	.L160
.L173:
	xorl	%eax, %eax
	movl	$.LC1, %ecx
	movl	%eax, 72(%esp)
.L131:
	movl	%edi, 180(%esp)
	movl	48(%esp), %edi
	leal	111(%esp), %eax
	movl	%eax, 40(%esp)
	movl	32(%esp), %ebx
	xorl	%esi, %esi
	movl	%ebp, 32(%esp)
	.p2align 4
	.p2align 3
.L136:
	movl	40(%esp), %eax
	incl	%esi
	xorl	%edx, %edx
	leal	(%eax,%esi), %ebp
	movl	%ebx, %eax
	divl	%edi
	movzbl	(%ecx,%edx), %edx
	movb	%dl, 0(%ebp)
	movl	%ebx, %edx
	movl	%eax, %ebx
	cmpl	%edi, %edx
	jnb	.L136
	movl	32(%esp), %ebp
	movl	180(%esp), %edi
	jmp	.L140
.L245:
	movl	188(%esp), %esi
	movl	188(%esp), %eax
	movl	(%esi), %esi
	addl	$4, %eax
	testl	%esi, %esi
	je	.L250
	cmpb	$0, (%esi)
	je	.L121
.L118:
	movl	44(%esp), %ecx
	xorl	%edx, %edx
	testl	%ecx, %ecx
	je	.L121
	movl	44(%esp), %ecx
	jmp	.L122
	.p2align 4,,10
	.p2align 3
.L120:
	cmpl	%ecx, %edx
	je	.L251
.L122:
	incl	%edx
	cmpb	$0, (%esi,%edx)
	jne	.L120
	movl	%eax, 188(%esp)
	jmp	.L116
.L177:
	movl	44(%esp), %esi
.L142:
	movb	$45, 80(%esp)
	movl	$1, %ebx
.L144:
	movl	28(%esp), %eax
	movl	68(%esp), %ecx
	xorl	$1, %eax
	andl	%ecx, %eax
	andb	$1, %al
	je	.L143
	movl	44(%esp), %eax
	shrl	$31, %eax
	testb	%al, %al
	je	.L143
	movl	72(%esp), %ecx
	leal	(%ecx,%esi), %eax
	cmpl	%eax, 52(%esp)
	jle	.L143
	movl	%ebx, 32(%esp)
	movl	52(%esp), %ebx
	movl	%ebp, 44(%esp)
	movl	40(%esp), %ebp
	.p2align 4
	.p2align 3
.L145:
	incl	%esi
	leal	0(%ebp,%esi), %eax
	movb	$48, (%eax)
	leal	(%ecx,%esi), %eax
	cmpl	%eax, %ebx
	jg	.L145
	movl	32(%esp), %ebx
	movl	44(%esp), %ebp
	jmp	.L143
.L185:
	movl	36(%esp), %esi
	xorl	%eax, %eax
	movl	%eax, 72(%esp)
	movl	32(%esp), %ebx
	testl	%esi, %esi
	jns	.L133
	negl	%ebx
	movl	$1, %eax
	movl	%ebx, 32(%esp)
	adcl	$0, %esi
	movl	%eax, 72(%esp)
	negl	%esi
	movl	%esi, 36(%esp)
	jmp	.L133
.L248:
	cmpb	$111, %al
	je	.L126
	movl	$10, %edx
	decl	%ecx
	movl	%edx, 48(%esp)
	jg	.L161
.L127:
	cmpb	$100, %al
	sete	%dl
	testb	%dl, %dl
	jne	.L184
	cmpb	$105, %al
	sete	%al
	testb	%al, %al
	jne	.L184
.L129:
	movl	188(%esp), %esi
	movl	188(%esp), %eax
	movl	(%esi), %ebx
	xorl	%esi, %esi
	movl	%esi, 36(%esp)
	addl	$4, %eax
	cmpb	$88, 0(%ebp)
	movl	%eax, 188(%esp)
	movl	%ebx, 32(%esp)
	je	.L173
	xorl	%ebx, %ebx
	movl	$.LC2, %ecx
	movl	%ebx, 72(%esp)
	jmp	.L132
.L250:
	movl	$.LC0, %esi
	jmp	.L118
.L164:
	xorl	%eax, %eax
	xorl	%ecx, %ecx
	jmp	.L99
.L184:
	movl	188(%esp), %eax
	addl	$4, 188(%esp)
	movl	(%eax), %eax
	movl	%eax, 32(%esp)
	sarl	$31, %eax
	movl	%eax, 36(%esp)
	jmp	.L128
.L251:
	movl	%eax, 188(%esp)
	movl	28(%esp), %ecx
	testl	%ecx, %ecx
	jne	.L147
	jmp	.L162
	.p2align 4,,10
	.p2align 3
.L148:
	testl	%edx, %edx
	jne	.L147
	.p2align 4,,9
	jmp	.L103
.L126:
	movl	$8, %ebx
	decl	%ecx
	movl	%ebx, 48(%esp)
	jg	.L161
	jmp	.L129
.L249:
	movl	72(%esp), %ebx
	leal	112(%esp), %edx
	testl	%ebx, %ebx
	jne	.L142
	leal	112(%esp), %edx
	xorl	%ebx, %ebx
	jmp	.L144
.L121:
	movl	%eax, 188(%esp)
	movl	28(%esp), %edx
	testl	%edx, %edx
	je	.L183
	movl	24(%esp), %eax
	xorl	%edx, %edx
	jmp	.L163
.L183:
	xorl	%edx, %edx
	jmp	.L162
	.size	kvformat, .-kvformat
	.p2align 4
	.globl	kformat
	.type	kformat, @function
kformat:
	subl	$28, %esp
	leal	44(%esp), %eax
	movl	%eax, 12(%esp)
	movl	40(%esp), %eax
	movl	%eax, 8(%esp)
	movl	36(%esp), %eax
	movl	%eax, 4(%esp)
	movl	32(%esp), %eax
	movl	%eax, (%esp)
	call	kvformat
	addl	$28, %esp
	ret
	.size	kformat, .-kformat
	.p2align 4
	.globl	kprintf
	.type	kprintf, @function
kprintf:
	pushl	%esi
	pushl	%ebx
	subl	$532, %esp
	leal	548(%esp), %eax
	movl	%eax, 12(%esp)
	movl	544(%esp), %eax
	leal	16(%esp), %ebx
	movl	%ebx, (%esp)
	movl	%eax, 8(%esp)
	movl	$512, %eax
	movl	%eax, 4(%esp)
	call	kvformat
	movl	%eax, %esi
	movsbl	16(%esp), %eax
	testb	%al, %al
	je	.L254
	.p2align 4
	.p2align 3
.L256:
	movl	%eax, (%esp)
	incl	%ebx
	call	putch
	movsbl	(%ebx), %eax
	testb	%al, %al
	jne	.L256
.L254:
	addl	$532, %esp
	movl	%esi, %eax
	popl	%ebx
	popl	%esi
	ret
	.size	kprintf, .-kprintf
	.p2align 4
	.globl	next_random
	.type	next_random, @function
next_random:
	imull	$1664525, random_state, %eax
	addl	$1013904223, %eax
	movl	%eax, random_state
	shrl	$8, %eax
	ret
	.size	next_random, .-next_random
	.p2align 4
	.globl	__udivdi3
	.type	__udivdi3, @function
__udivdi3:
	subl	$36, %esp
	leal	24(%esp), %eax
	movl	52(%esp), %edx
	movl	%eax, 8(%esp)
	movl	48(%esp), %eax
	movl	%edx, 4(%esp)
	movl	44(%esp), %edx
	movl	%eax, (%esp)
	movl	40(%esp), %eax
	call	div64
	addl	$36, %esp
	ret
	.size	__udivdi3, .-__udivdi3
	.p2align 4
	.globl	__umoddi3
	.type	__umoddi3, @function
__umoddi3:
	subl	$36, %esp
	leal	24(%esp), %eax
	movl	52(%esp), %edx
	movl	%eax, 8(%esp)
	movl	48(%esp), %eax
	movl	%edx, 4(%esp)
	movl	44(%esp), %edx
	movl	%eax, (%esp)
	movl	40(%esp), %eax
	call	div64
	movl	24(%esp), %eax
	movl	28(%esp), %edx
	addl	$36, %esp
	ret
	.size	__umoddi3, .-__umoddi3
	.p2align 4
	.globl	__udivmoddi4
	.type	__udivmoddi4, @function
__udivmoddi4:
	subl	$8, %esp
	movl	%ebx, (%esp)
	movl	24(%esp), %ebx
	movl	%esi, 4(%esp)
	movl	28(%esp), %esi
	movl	20(%esp), %ecx
	movl	12(%esp), %eax
	movl	16(%esp), %edx
	movl	%esi, 20(%esp)
	movl	4(%esp), %esi
	movl	%ebx, 16(%esp)
	movl	(%esp), %ebx
	movl	%ecx, 12(%esp)
	addl	$8, %esp
	jmp	div64
	.size	__udivmoddi4, .-__udivmoddi4
	.p2align 4
	.globl	__divdi3
	.type	__divdi3, @function
__divdi3:
	subl	$60, %esp
	movl	%edi, 52(%esp)
	movl	76(%esp), %edi
	movl	%esi, 48(%esp)
	movl	64(%esp), %eax
	movl	%ebx, 44(%esp)
	movl	68(%esp), %edx
	movl	%ebp, 56(%esp)
	movl	72(%esp), %esi
	testl	%edi, %edi
	movl	%edi, %ebx
	movl	%eax, 16(%esp)
	movl	%edx, 20(%esp)
	movl	%esi, %ecx
	jns	.L270
	negl	%ecx
	adcl	$0, %ebx
	negl	%ebx
.L270:
	movl	20(%esp), %ebp
	movl	16(%esp), %eax
	movl	20(%esp), %edx
	testl	%ebp, %ebp
	jns	.L271
	negl	%eax
	adcl	$0, %edx
	negl	%edx
.L271:
	movl	%ecx, (%esp)
	leal	32(%esp), %ebp
	movl	%ebp, 8(%esp)
	movl	%ebx, 4(%esp)
	call	div64
	xorl	20(%esp), %edi
	jns	.L272
	negl	%eax
	adcl	$0, %edx
	negl	%edx
.L272:
	movl	44(%esp), %ebx
	movl	48(%esp), %esi
	movl	52(%esp), %edi
	movl	56(%esp), %ebp
	addl	$60, %esp
	ret
	.size	__divdi3, .-__divdi3
	.p2align 4
	.globl	__moddi3
	.type	__moddi3, @function
__moddi3:
	subl	$44, %esp
	movl	%ebx, 32(%esp)
	movl	60(%esp), %eax
	movl	%esi, 36(%esp)
	movl	56(%esp), %ecx
	movl	%edi, 40(%esp)
	movl	52(%esp), %esi
	movl	48(%esp), %edi
	testl	%eax, %eax
	movl	%eax, %ebx
	jns	.L275
	negl	%ecx
	adcl	$0, %ebx
	negl	%ebx
.L275:
	testl	%esi, %esi
	movl	%edi, %eax
	movl	%esi, %edx
	js	.L279
	movl	%ebx, 4(%esp)
	leal	24(%esp), %esi
	movl	%esi, 8(%esp)
	movl	%ecx, (%esp)
	call	div64
	movl	24(%esp), %eax
	movl	28(%esp), %edx
	movl	32(%esp), %ebx
	movl	36(%esp), %esi
	movl	40(%esp), %edi
	addl	$44, %esp
	ret
	.p2align 4,,10
	.p2align 3
.L279:
	movl	%ebx, 4(%esp)
	leal	24(%esp), %esi
	negl	%eax
	movl	%esi, 8(%esp)
	adcl	$0, %edx
	movl	%ecx, (%esp)
	negl	%edx
	call	div64
	movl	24(%esp), %eax
	movl	28(%esp), %edx
	movl	32(%esp), %ebx
	movl	36(%esp), %esi
	negl	%eax
	movl	40(%esp), %edi
	adcl	$0, %edx
	addl	$44, %esp
	negl	%edx
	ret
	.size	__moddi3, .-__moddi3
	.data
	.align 4
	.type	random_state, @object
	.size	random_state, 4
random_state:
	.long	12345
	.ident	"GCC: (Debian 12.2.0-14+deb12u1) 12.2.0"
	.section	.note.GNU-stack,"",@progbits
