; Protected mode and back: real mode loads the tables and sets PE, a far jump begins code of 32 bits, a word is
; written through a segment with a base of its own, and real mode goes on where the segments were made those of
; 64 KiB again. It then takes an interrupt by the table of real mode.
; rom 4096 bytes of f4
; run --steps 1000
        bits 16
        cpu 386
        org 0

CODE32          equ 0x08        ; 4 GiB of code from 0
CODE16          equ 0x10        ; the 64 KiB of this ROM's segment, as real mode has it
DATA16          equ 0x18        ; 64 KiB of data from 0, as real mode has it
SCREEN          equ 0x20        ; the 4,000 bytes of the screen
ROM             equ 0xff000     ; where this ROM stands

start:
        lgdt [cs:gdtr]                  ; 00000000 2e0f01166d00
        mov eax,cr0                     ; 00000006 0f20c0
        or al,1                         ; 00000009 0c01
        mov cr0,eax                     ; 0000000b 0f22c0
        jmp dword CODE32:ROM+protected  ; 0000000e 66ea16f00f000800

        bits 32
protected:
        mov ax,SCREEN                   ; 00000016 66b82000
        mov es,ax                       ; 0000001a 8ec0
        mov word [es:0x0000],0x0750     ; 0000001c 2666c705000000005007 "P"
        str bx                          ; 00000026 660f00cb real mode has no STR
        jmp CODE16:back                 ; 0000002a ea310000001000

        bits 16
back:
        mov ax,DATA16                   ; 00000031 b81800
        mov es,ax                       ; 00000034 8ec0
        mov eax,cr0                     ; 00000036 0f20c0
        and al,0xfe                     ; 00000039 24fe
        mov cr0,eax                     ; 0000003b 0f22c0
        jmp 0xff00:real                 ; 0000003e ea430000ff
real:
        mov ax,0xb800                   ; 00000043 b800b8
        mov es,ax                       ; 00000046 8ec0
        mov word [es:0x0002],0x0752     ; 00000048 26c70602005207 "R"
        sub ax,ax                       ; 0000004f 29c0
        mov ss,ax                       ; 00000051 8ed0
        mov sp,0x7000                   ; 00000053 bc0070
        mov ds,ax                       ; 00000056 8ed8
        mov word [0x0080],interrupt     ; 00000058 c70680006500 vector 20h
        mov [0x0082],cs                 ; 0000005e 8c0e8200
        int 0x20                        ; 00000062 cd20
        hlt                             ; 00000064 f4
interrupt:
        mov word [es:0x0004],0x0749     ; 00000065 26c70604004907 "I"
        iret                            ; 0000006c cf

gdtr:
        dw 0x27                         ; 0000006d 2700
        dd ROM+gdt                      ; 0000006f 73f00f00
gdt:
        dd 0x00000000, 0x00000000       ; 00000073 0000000000000000
        dd 0x0000ffff, 0x00cf9b00       ; 0000007b ffff0000009bcf00
        dd 0xf000ffff, 0x00009b0f       ; 00000083 ffff00f00f9b0000
        dd 0x0000ffff, 0x00009300       ; 0000008b ffff000000930000
        dd 0x80000f9f, 0x0040930b       ; 00000093 9f0f00800b934000

        times 0xff0-($-$$) db 0xf4
        jmp 0xff00:start                ; 00000ff0 ea000000ff
