# Reads a page whose dirty flag is clear, and then copies within it by MOVSL, which reads and writes there: the step clashes, and
# all that is present leaves the shadows.
	.bss
	.p2align 12
buf:
	.zero 4096
	.text
	.globl _start
_start:
	movl $buf,%edi
	shrl $10,%edi
	andl $0xffc,%edi
	addl $0xc0018000,%edi
	movl %edi,%ebx
again:
	andl $0xffffffbf,(%ebx)
	invlpg buf
	movl buf,%eax
	movl $buf,%esi
	movl $buf+4,%edi
	movsl
	jmp again
