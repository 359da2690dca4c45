; A ROM of 64 KB at 0xFFFF0000 for models of a PC with an i440FX chipset (Bochs; QEMU's machine 'pc'). It brings the processor
; to the state in which this project's machine begins (docs/FORMATS.md, The machine at boot).   nasm -f bin -o boot.rom boot.asm
;
; Not proved. It rests on the SDM, volume 3, 9.9 (the way to protected mode), and on the chipset's registers PAM0 to PAM6 and SMRAM.
;
; The guest's memory comes as a file that the model has at 0x1000000. Its dwords: the number of pieces, the entry, the first EAX,
; the first EBX; then each piece: a physical address, a number of dwords, the dwords. tests/outside/boot.py writes that file.
BASE   equ 0xFFFF0000
IMG    equ 0x1000000
DIR    equ 0x1800000        ; the ROM's own directory, two tables and a stack, outside the guest's memory
TRAMP  equ 0x9F000          ; a frame of the guest that is free at boot; the drivers clear it afterwards
HIGH_  equ 0xC0000000       ; where the guest's direct map lies
        org 0
        bits 16
start16:
        cli
        cld
        o32 lgdt [cs:gdtr]
        mov eax, cr0
        or al, 1
        mov cr0, eax
        jmp dword 0x08:(BASE + start32)
        align 8
gdtr:   dw 0x27
        dd BASE + gdt
gdtr2:  dw 0x27
        dd 0xC0002000
idtr2:  dw 0
        dd 0
        align 8
gdt:    dd 0, 0, 0xFFFF, 0xCF9B00, 0xFFFF, 0xCF9300, 0xFFFF, 0xCFFA00, 0xFFFF, 0xCFF200
        bits 32
start32:
        mov eax, 0x10
        mov ds, eax
        mov es, eax
        mov ss, eax
        mov esp, DIR + 0x4000
        ; 0xA0000 to 0xFFFFF become RAM: PAM0 to PAM6 (0x59 to 0x5F), and SMRAM (0x72)
        mov dx, 0xCF8
        mov eax, 0x80000058
        out dx, eax
        mov dx, 0xCFD
        mov al, 0x33
        out dx, al
        inc dx
        out dx, al
        inc dx
        out dx, al
        mov dx, 0xCF8
        mov eax, 0x8000005C
        out dx, eax
        mov dx, 0xCFC
        mov al, 0x33
        out dx, al
        inc dx
        out dx, al
        inc dx
        out dx, al
        inc dx
        out dx, al
        mov dx, 0xCF8
        mov eax, 0x80000070
        out dx, eax
        mov dx, 0xCFE
        mov al, 0x4A
        out dx, al
        xor eax, eax
        mov dx, 0xCF8
        out dx, eax
        ; the timer counts once, to 1, and its line then stays: in QEMU it would go by real time. Starting the controllers clears its
        ; request; they are masked until the guest starts them
        mov al, 0x30
        out 0x43, al
        mov al, 1
        out 0x40, al
        xor al, al
        out 0x40, al
        mov ecx, 0x10000
settle: loop settle
        mov al, 0x11
        out 0x20, al
        out 0xA0, al
        mov al, 0
        out 0x21, al
        out 0xA1, al
        mov al, 4
        out 0x21, al
        mov al, 2
        out 0xA1, al
        mov al, 1
        out 0x21, al
        out 0xA1, al
        mov al, 0xFF
        out 0x21, al
        out 0xA1, al
        xor eax, eax
        mov edi, 0xA0000
        mov ecx, 0x18000
        rep stosd
        mov edi, DIR
        mov ecx, 0xC00
        rep stosd
        ; the pieces go to their places
        mov esi, IMG
        lodsd
        mov ebx, eax
        add esi, 12
piece:  test ebx, ebx
        jz pieces
        lodsd
        mov edi, eax
        lodsd
        mov ecx, eax
        rep movsd
        dec ebx
        jmp piece
pieces: ; tables of the ROM's own: its 64 KB where they are, the first 4 MB at 0xC0000000
        mov dword [DIR + 4*1023], DIR + 0x1003
        mov dword [DIR + 4*768], DIR + 0x2003
        mov edi, DIR + 0x1000 + 4*0x3F0
        mov eax, BASE + 0x63
        mov ecx, 16
rompt:  stosd
        add eax, 0x1000
        loop rompt
        mov edi, DIR + 0x2000
        mov eax, 0x63
        mov ecx, 1024
highpt: stosd
        add eax, 0x1000
        loop highpt
        ; tables at DIR + 0x10000 of the first 32 MB, by which the driver of Bochs reads memory at the end
        mov edi, DIR + 0x10000
        mov eax, 0x63
        mov ecx, 8192
window: stosd
        add eax, 0x1000
        loop window
        ; the trampoline, with its two numbers: it loads the guest's CR3 where both directories map it
        mov esi, BASE + tramp
        mov edi, TRAMP
        mov ecx, tramp_end - tramp
        rep movsb
        mov eax, [IMG + 4]
        sub eax, HIGH_ + TRAMP + (tramp_end - tramp)
        mov [TRAMP + (t_rel - tramp)], eax
        mov eax, [IMG + 8]
        mov [TRAMP + (t_eax - tramp)], eax
        mov ebx, [IMG + 12]
        mov ecx, DIR
        mov cr3, ecx
        push dword 2
        popf
        mov ecx, 0x80000011
        mov cr0, ecx
        jmp short on
on:     lgdt [BASE + gdtr2]
        lidt [BASE + idtr2]
        mov eax, 0x10
        mov ds, eax
        mov es, eax
        mov ss, eax
        mov eax, 0
        mov fs, eax
        mov gs, eax
        jmp 0x08:(BASE + flat)
flat:   mov ecx, 0
        mov edx, 0
        mov esi, 0
        mov edi, 0
        mov ebp, 0
        mov cr2, ecx
        mov esp, 0xC0100000
        mov eax, HIGH_ + TRAMP
        jmp eax
tramp:  mov eax, 0x1000
        mov cr3, eax
        db 0xB8
t_eax:  dd 0
        db 0xE9
t_rel:  dd 0
tramp_end:
        times 0xFFF0 - ($ - $$) db 0xF4
        bits 16
        jmp start16
        times 0x10000 - ($ - $$) db 0xF4
