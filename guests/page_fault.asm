; A page fault that is mended: the page at 5000h is not present, a write to it faults, the handler gives it the
; frame at 6000h, and the write is made again by IRET. EAX reads it back, EBX is its entry behind that, with A and D,
; ECX counts the faults, and EDX has their error code.
; rom 4096 bytes of f4
; run --steps 2000
        bits 16
        cpu 386
        org 0

CODE            equ 0x08
DATA            equ 0x10
ROM             equ 0xff000     ; where this ROM stands
DIRECTORY       equ 0x2000
TABLE           equ 0x3000

start:
        o32 lgdt [cs:gdtr]              ; 00000000 2e660f0116a400
        o32 lidt [cs:idtr]              ; 00000007 2e660f011eaa00
        mov eax,cr0                     ; 0000000e 0f20c0
        or al,1                         ; 00000011 0c01
        mov cr0,eax                     ; 00000013 0f22c0
        jmp dword CODE:ROM+protected    ; 00000016 66ea1ef00f000800

        bits 32
protected:
        mov ax,DATA                     ; 0000001e 66b81000
        mov ds,ax                       ; 00000022 8ed8
        mov es,ax                       ; 00000024 8ec0
        mov ss,ax                       ; 00000026 8ed0
        mov esp,0x9000                  ; 00000028 bc00900000
; the table of the first mebibyte, each page at its own address, and the directory
        mov edi,TABLE                   ; 0000002d bf00300000
        mov eax,0x003                   ; 00000032 b803000000
        mov ecx,256                     ; 00000037 b900010000
.page:
        stosd                           ; 0000003c ab
        add eax,0x1000                  ; 0000003d 0500100000
        loop .page                      ; 00000042 e2f8
        mov dword [DIRECTORY],TABLE+3   ; 00000044 c7050020000003300000
        mov dword [TABLE+4*5],0         ; 0000004e c7051430000000000000 but for 5000h
        mov eax,DIRECTORY               ; 00000058 b800200000
        mov cr3,eax                     ; 0000005d 0f22d8
        mov eax,cr0                     ; 00000060 0f20c0
        or eax,0x80000000               ; 00000063 0d00000080
        mov cr0,eax                     ; 00000068 0f22c0
        jmp short .paged                ; 0000006b eb00
.paged:
        sub ecx,ecx                     ; 0000006d 29c9
        mov dword [0x5000],0x12345678   ; 0000006f c7050050000078563412
        mov eax,[0x6000]                ; 00000079 a100600000
        mov ebx,[TABLE+4*5]             ; 0000007e 8b1d14300000
        mov word [0xb8000],0x0721       ; 00000084 66c70500800b002107 "!"
        hlt                             ; 0000008d f4

; the handler of vector 14
fault:
        inc ecx                         ; 0000008e 41
        push eax                        ; 0000008f 50
        mov eax,cr2                     ; 00000090 0f20d0
        shr eax,12                      ; 00000093 c1e80c
        mov dword [TABLE+4*eax],0x6003  ; 00000096 c704850030000003600000
        pop eax                         ; 000000a1 58
        pop edx                         ; 000000a2 5a
        iret                            ; 000000a3 cf

gdtr:
        dw 0x17                         ; 000000a4 1700
        dd ROM+gdt                      ; 000000a6 b0f00f00
idtr:
        dw 0x77                         ; 000000aa 7700
        dd ROM+gate-8*14                ; 000000ac 58f00f00
gdt:
        dd 0x00000000, 0x00000000       ; 000000b0 0000000000000000
        dd 0x0000ffff, 0x00cf9b00       ; 000000b8 ffff0000009bcf00
        dd 0x0000ffff, 0x00cf9300       ; 000000c0 ffff00000093cf00
; the one gate of the interrupt table: an interrupt gate of the 80386, with the offset FF000h + fault
gate:
        dw ROM+fault-0xf0000            ; 000000c8 8ef0
        dw CODE                         ; 000000ca 0800
        dw 0x8e00                       ; 000000cc 008e
        dw 0x000f                       ; 000000ce 0f00

        times 0xff0-($-$$) db 0xf4
        bits 16
        jmp 0xff00:start                ; 00000ff0 ea000000ff
