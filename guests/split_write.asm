; A doubleword over two pages is written whole or not at all: page 3 is there and page 4 is not, so a write to 3FFEh
; faults at 4000h, with the code of a write. EAX has the code, and ESI CR2; EBX is the word at 3FFEh, as it was, and ECX
; the entry of page 3, whose walk for the write has set A and D.
; rom 4096 bytes of f4
; run --steps 2000
        bits 16
        cpu 386
        org 0

CODE            equ 0x08
DATA            equ 0x10
ROM             equ 0xff000     ; where this ROM stands
DIRECTORY       equ 0x8000
TABLE           equ 0x9000

start:
        o32 lgdt [cs:gdtr]              ; 00000000 2e660f0116a801
        o32 lidt [cs:idtr]              ; 00000007 2e660f011eae01
        mov eax,cr0                     ; 0000000e 0f20c0
        or al,1                         ; 00000011 0c01
        mov cr0,eax                     ; 00000013 0f22c0
        jmp dword CODE:ROM+protected    ; 00000016 66ea1ef00f000800

        bits 32
protected:
        mov ax,DATA                     ; 0000001e 66b81000
        mov ds,ax                       ; 00000022 8ed8
        mov es,ax                       ; 00000024 8ec0
        mov ss,ax                       ; 00000026 8ed0
; the code of page 1
        mov esi,ROM+page_1              ; 00000028 be94f00f00
        mov edi,0x1000                  ; 0000002d bf00100000
        mov ecx,0x140                   ; 00000032 b940010000
        rep movsb                       ; 00000037 f3a4
; the table of the first mebibyte, each page at its own address, and the directory
        mov edi,TABLE                   ; 00000039 bf00900000
        mov eax,0x003                   ; 0000003e b803000000
        mov ecx,256                     ; 00000043 b900010000
.page:
        stosd                           ; 00000048 ab
        add eax,0x1000                  ; 00000049 0500100000
        loop .page                      ; 0000004e e2f8
        mov dword [DIRECTORY],TABLE+3   ; 00000050 c7050080000003900000
        mov dword [TABLE+4*4],0         ; 0000005a c7051090000000000000 but for 4000h
        mov word [0x3ffe],0x5aa5        ; 00000064 66c705fe3f0000a55a
        mov eax,DIRECTORY               ; 0000006d b800800000
        mov cr3,eax                     ; 00000072 0f22d8
        mov eax,cr0                     ; 00000075 0f20c0
        or eax,0x80000000               ; 00000078 0d00000080
        mov cr0,eax                     ; 0000007d 0f22c0
        mov eax,0x12345678              ; 00000080 b878563412
        mov esp,0x1800                  ; 00000085 bc00180000
        push dword 2                    ; 0000008a 6a02
        popf                            ; 0000008c 9d
        jmp CODE:0x1000                 ; 0000008d ea001000000800

; what goes to page 1
page_1:
        db 0x89,0x05                    ; 00000094 8905 mov [0x3ffe],eax
        dd 0x3ffe                       ; 00000096 fe3f0000

        times page_1+0x100-$ db 0xf4
; 1100h: the handler of vector 14
        mov ecx,[TABLE+4*3]             ; 00000194 8b0d0c900000
        mov eax,[esp]                   ; 0000019a 8b0424
        movzx ebx,word [0x3ffe]         ; 0000019d 0fb71dfe3f0000
        mov esi,cr2                     ; 000001a4 0f20d6
        hlt                             ; 000001a7 f4

gdtr:
        dw 0x17                         ; 000001a8 1700
        dd ROM+gdt                      ; 000001aa b4f10f00
idtr:
        dw 0x77                         ; 000001ae 7700
        dd ROM+gate-8*14                ; 000001b0 5cf10f00
gdt:
        dd 0x00000000, 0x00000000       ; 000001b4 0000000000000000
        dd 0x0000ffff, 0x00cf9b00       ; 000001bc ffff0000009bcf00
        dd 0x0000ffff, 0x00cf9300       ; 000001c4 ffff00000093cf00
; the one gate of the interrupt table: an interrupt gate of the 80386 to 1100h
gate:
        dd 0x00081100, 0x00008e00       ; 000001cc 00110800008e0000

        times 0xff0-($-$$) db 0xf4
        bits 16
        jmp 0xff00:start                ; 00000ff0 ea000000ff
