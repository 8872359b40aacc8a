; A JMP to a TSS of the 80386 whose limit is one too short: a fault of vector 10 in the old task, with nothing saved.
; EAX has the code, EBX TR, CL and CH the access bytes of the old TSS and of the other, and EDX the EIP in the image of
; the old one, as it was made.
; rom 4096 bytes of f4
; run --steps 1000
        bits 16
        cpu 386
        org 0

CODE            equ 0x08
DATA            equ 0x10
FIRST           equ 0x20
SECOND          equ 0x28
ROM             equ 0xff000     ; where this ROM stands
GDT             equ 0x1000      ; where the descriptors go
TASKS           equ 0x2000      ; where the TSS stand, 80h bytes each

start:
        o32 lgdt [cs:gdtr]              ; 00000000 2e660f0116ab00
        o32 lidt [cs:idtr]              ; 00000007 2e660f011eb700
        mov eax,cr0                     ; 0000000e 0f20c0
        or al,1                         ; 00000011 0c01
        mov cr0,eax                     ; 00000013 0f22c0
        jmp dword CODE:ROM+protected    ; 00000016 66ea1ef00f000800

        bits 32
protected:
        mov ax,DATA                     ; 0000001e 66b81000
        mov ds,ax                       ; 00000022 8ed8
        mov es,ax                       ; 00000024 8ec0
        mov ss,ax                       ; 00000026 8ed0
        mov esp,0x9000                  ; 00000028 bc00900000
; the descriptors go to RAM, where they can be made busy
        mov esi,ROM+gdt                 ; 0000002d bebdf00f00
        mov edi,GDT                     ; 00000032 bf00100000
        mov ecx,12                      ; 00000037 b90c000000
        rep movsd                       ; 0000003c f3a5
        lgdt [ROM+ramgdtr]              ; 0000003e 0f0115b1f00f00
        mov dword [TASKS+0x20],0x11111111 ; 00000045 c7052020000011111111
        mov ebx,TASKS+0x80              ; 0000004f bb80200000
        mov eax,ROM+second              ; 00000054 b883f00f00
        call make                       ; 00000059 e826000000
        mov ax,FIRST                    ; 0000005e 66b82000
        ltr ax                          ; 00000062 0f00d8
        jmp SECOND:0                    ; 00000065 ea000000002800

; the handler of vector 10
fault:
        pop eax                         ; 0000006c 58
        str ebx                         ; 0000006d 0f00cb
        mov cl,[GDT+FIRST+5]            ; 00000070 8a0d25100000
        mov ch,[GDT+SECOND+5]           ; 00000076 8a2d2d100000
        mov edx,[TASKS+0x20]            ; 0000007c 8b1520200000
        hlt                             ; 00000082 f4

; the other task, which never runs
second:
        hlt                             ; 00000083 f4

; a TSS at EBX, with EIP in EAX, and EBX then behind it
make:
        mov [ebx+0x20],eax              ; 00000084 894320
        mov byte [ebx+0x24],0x02        ; 00000087 c6432402 EFLAGS
        lea edx,[ebx+0x1000]            ; 0000008b 8d9300100000
        mov [ebx+0x38],edx              ; 00000091 895338 ESP
        mov byte [ebx+0x48],DATA        ; 00000094 c6434810 ES, CS, SS, DS
        mov byte [ebx+0x4c],CODE        ; 00000098 c6434c08
        mov byte [ebx+0x50],DATA        ; 0000009c c6435010
        mov byte [ebx+0x54],DATA        ; 000000a0 c6435410
        add ebx,0x80                    ; 000000a4 81c380000000
        ret                             ; 000000aa c3

gdtr:
        dw 0x2f                         ; 000000ab 2f00
        dd ROM+gdt                      ; 000000ad bdf00f00
ramgdtr:
        dw 0x2f                         ; 000000b1 2f00
        dd GDT                          ; 000000b3 00100000
idtr:
        dw 0x57                         ; 000000b7 5700
        dd ROM+gate-8*10                ; 000000b9 9df00f00
gdt:
        dd 0x00000000, 0x00000000       ; 000000bd 0000000000000000
        dd 0x0000ffff, 0x00cf9b00       ; 000000c5 ffff0000009bcf00
        dd 0x0000ffff, 0x00cf9300       ; 000000cd ffff00000093cf00
        dd 0x00000000, 0x00000000       ; 000000d5 0000000000000000
        dd 0x20000067, 0x00008900       ; 000000dd 6700002000890000
        dd 0x20800066, 0x00008900       ; 000000e5 6600802000890000
; the one gate of the interrupt table: an interrupt gate of the 80386, with the offset FF000h + fault
gate:
        dw ROM+fault-0xf0000            ; 000000ed 6cf0
        dw CODE                         ; 000000ef 0800
        dw 0x8e00                       ; 000000f1 008e
        dw 0x000f                       ; 000000f3 0f00

        times 0xff0-($-$$) db 0xf4
        bits 16
        jmp 0xff00:start                ; 00000ff0 ea000000ff
