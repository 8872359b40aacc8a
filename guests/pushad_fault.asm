; PUSHAD that faults in its middle is undone: ESP is 3010h, page 3 is there and page 2 is not, so the fifth of its
; pushes faults at 2FFCh. The handler's frame goes to 300Ch and below, so ESP was as before. ESP has its top at the end;
; EAX, ECX, EDX and EBX are what lies there: the code, EIP, CS and EFLAGS with RF; ESI is CR2.
; rom 4096 bytes of f4
; run --steps 2000
        bits 16
        cpu 386
        org 0

CODE            equ 0x08
DATA            equ 0x10
ROM             equ 0xff000     ; where this ROM stands
DIRECTORY       equ 0x8000
TABLE           equ 0x9000

start:
        o32 lgdt [cs:gdtr]              ; 00000000 2e660f01169901
        o32 lidt [cs:idtr]              ; 00000007 2e660f011e9f01
        mov eax,cr0                     ; 0000000e 0f20c0
        or al,1                         ; 00000011 0c01
        mov cr0,eax                     ; 00000013 0f22c0
        jmp dword CODE:ROM+protected    ; 00000016 66ea1ef00f000800

        bits 32
protected:
        mov ax,DATA                     ; 0000001e 66b81000
        mov ds,ax                       ; 00000022 8ed8
        mov es,ax                       ; 00000024 8ec0
        mov ss,ax                       ; 00000026 8ed0
; the code of page 1
        mov esi,ROM+page_1              ; 00000028 be86f00f00
        mov edi,0x1000                  ; 0000002d bf00100000
        mov ecx,0x140                   ; 00000032 b940010000
        rep movsb                       ; 00000037 f3a4
; the table of the first mebibyte, each page at its own address, and the directory
        mov edi,TABLE                   ; 00000039 bf00900000
        mov eax,0x003                   ; 0000003e b803000000
        mov ecx,256                     ; 00000043 b900010000
.page:
        stosd                           ; 00000048 ab
        add eax,0x1000                  ; 00000049 0500100000
        loop .page                      ; 0000004e e2f8
        mov dword [DIRECTORY],TABLE+3   ; 00000050 c7050080000003900000
        mov dword [TABLE+4*2],0         ; 0000005a c7050890000000000000 but for 2000h
        mov eax,DIRECTORY               ; 00000064 b800800000
        mov cr3,eax                     ; 00000069 0f22d8
        mov eax,cr0                     ; 0000006c 0f20c0
        or eax,0x80000000               ; 0000006f 0d00000080
        mov cr0,eax                     ; 00000074 0f22c0
        mov esp,0x3010                  ; 00000077 bc10300000
        push dword 2                    ; 0000007c 6a02
        popf                            ; 0000007e 9d
        jmp CODE:0x1000                 ; 0000007f ea001000000800

; what goes to page 1
page_1:
        pushad                          ; 00000086 60

        times page_1+0x100-$ db 0xf4
; 1100h: the handler of vector 14
        mov eax,[esp]                   ; 00000186 8b0424
        mov ecx,[esp+4]                 ; 00000189 8b4c2404
        mov edx,[esp+8]                 ; 0000018d 8b542408
        mov ebx,[esp+12]                ; 00000191 8b5c240c
        mov esi,cr2                     ; 00000195 0f20d6
        hlt                             ; 00000198 f4

gdtr:
        dw 0x17                         ; 00000199 1700
        dd ROM+gdt                      ; 0000019b a5f10f00
idtr:
        dw 0x77                         ; 0000019f 7700
        dd ROM+gate-8*14                ; 000001a1 4df10f00
gdt:
        dd 0x00000000, 0x00000000       ; 000001a5 0000000000000000
        dd 0x0000ffff, 0x00cf9b00       ; 000001ad ffff0000009bcf00
        dd 0x0000ffff, 0x00cf9300       ; 000001b5 ffff00000093cf00
; the one gate of the interrupt table: an interrupt gate of the 80386 to 1100h
gate:
        dd 0x00081100, 0x00008e00       ; 000001bd 00110800008e0000

        times 0xff0-($-$$) db 0xf4
        bits 16
        jmp 0xff00:start                ; 00000ff0 ea000000ff
