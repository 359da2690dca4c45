# Maps a page, reads it, gives it another frame, and reads it again before and after an INVLPG: the old frame is read,
# by a stale translation, until the page is dropped.
	.text
	.globl _start
_start:
	# Three free frames, by the direct map: a page table, and the two frames that the page is given in turn.
	leal 0xc0000000(%ebx),%edi
	movl $0xaaaaaaaa,0x1000(%edi)
	movl $0xbbbbbbbb,0x2000(%edi)
	leal 0x1003(%ebx),%eax	# the first frame: present, writable
	movl %eax,0x14(%edi)	# the table's word of 0x40005000
	leal 3(%ebx),%eax
	movl %eax,0xc0001400	# the directory's word of 0x40000000
	movl 0x40005000,%eax
	outl %eax,$0x80
	addl $0x1000,0x14(%edi)	# the second frame
	movl 0x40005000,%eax	# what is kept still leads to the first
	outl %eax,$0x80
	invlpg 0x40005000
	movl 0x40005000,%eax
	outl %eax,$0x80
	hlt
