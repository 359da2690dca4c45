# What tools/refusals takes out, and what it leaves; more.refused has the lines and numbers.
	.equ COUNT, 2
LAST = COUNT * 4 + 1
	.section .init_array,"aw"
	.long COUNT
	.section .text
first:	cli; lock; xaddl %eax,(%ebx)	# two statements of one line
first:	hlt
1:	rdtsc
	movb $LAST,%al // a comment of another kind
	.ascii "a;b#c\x41"
	rep; movsb
	jmp first	/* labels in a line that is refused stay: */
second: .weak first
	call second
	movb $300,%al
	.pushsection .notes_of_mine
	.long first
	.popsection
	nop
	.data
	nop
	/* without its end
	.quad 0
