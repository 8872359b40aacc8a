; A debugger that steps through another task by TF: vector 1 is a task gate to it. At each trap it shows on the screen
; the letter that the other task has in AL, which its TSS has saved, and after the twelfth step it clears TF there,
; so that the other task runs on to its HLT.
; rom 4096 bytes of f4
; run --steps 1000
        bits 16
        cpu 386
        org 0

CODE            equ 0x08
DATA            equ 0x10
START           equ 0x18        ; the TSS that this program begins in, for its registers to be saved in
DEBUGGER        equ 0x20
DEBUGGED        equ 0x28
ROM             equ 0xff000     ; where this ROM stands
TASKS           equ 0x2000      ; where the three TSS stand, 80h bytes each
OTHER           equ TASKS+0x100 ; that of the task that is debugged

start:
        o32 lgdt [cs:gdtr]              ; 00000000 2e660f0116c400
        o32 lidt [cs:idtr]              ; 00000007 2e660f011ed000
        mov eax,cr0                     ; 0000000e 0f20c0
        or al,1                         ; 00000011 0c01
        mov cr0,eax                     ; 00000013 0f22c0
        jmp dword CODE:ROM+protected    ; 00000016 66ea1ef00f000800

        bits 32
protected:
        mov ax,DATA                     ; 0000001e 66b81000
        mov ds,ax                       ; 00000022 8ed8
        mov es,ax                       ; 00000024 8ec0
        mov ss,ax                       ; 00000026 8ed0
        mov esp,0x9000                  ; 00000028 bc00900000
; the descriptors go to RAM, where they can be made busy
        mov esi,ROM+gdt                 ; 0000002d bed6f00f00
        mov edi,0x1000                  ; 00000032 bf00100000
        mov ecx,12                      ; 00000037 b90c000000
        rep movsd                       ; 0000003c f3a5
        lgdt [ROM+ramgdtr]              ; 0000003e 0f0115caf00f00
; the debugger counts in EDI where it shows
        mov ebx,TASKS+0x80              ; 00000045 bb80200000
        mov eax,ROM+debugger            ; 0000004a b89af00f00
        mov ecx,0x0002                  ; 0000004f b902000000
        call make                       ; 00000054 e824000000
        mov dword [ebx-0x80+0x44],0xb8000 ; 00000059 c743c400800b00
        mov eax,ROM+debugged            ; 00000060 b8b6f00f00
        mov ecx,0x0102                  ; 00000065 b902010000 TF
        call make                       ; 0000006a e80e000000
        mov ax,START                    ; 0000006f 66b81800
        ltr ax                          ; 00000073 0f00d8
        jmp DEBUGGED:0                  ; 00000076 ea000000002800

; a TSS at EBX, with EIP in EAX and EFLAGS in ECX, and EBX then behind it
make:
        mov [ebx+0x20],eax              ; 0000007d 894320
        mov [ebx+0x24],ecx              ; 00000080 894b24
        mov byte [ebx+0x48],DATA        ; 00000083 c6434810 ES, CS, SS, DS
        mov byte [ebx+0x4c],CODE        ; 00000087 c6434c08
        mov byte [ebx+0x50],DATA        ; 0000008b c6435010
        mov byte [ebx+0x54],DATA        ; 0000008f c6435410
        add ebx,0x80                    ; 00000093 81c380000000
        ret                             ; 00000099 c3

; the debugger, in its own task
debugger:
        mov al,[OTHER+0x28]             ; 0000009a a028210000 AL of the other
        mov [edi],al                    ; 0000009f 8807
        add edi,2                       ; 000000a1 83c702
        cmp edi,0xb8000+2*12            ; 000000a4 81ff18800b00
        jb .more                        ; 000000aa 7207
        and byte [OTHER+0x25],0xfe      ; 000000ac 802525210000fe its TF
.more:
        iret                            ; 000000b3 cf
        jmp debugger                    ; 000000b4 ebe4

; the task that it debugs
debugged:
        mov eax,0x41                    ; 000000b6 b841000000 "A"
        mov ecx,10                      ; 000000bb b90a000000
.next:
        inc eax                         ; 000000c0 40
        loop .next                      ; 000000c1 e2fd
        hlt                             ; 000000c3 f4

gdtr:
        dw 0x2f                         ; 000000c4 2f00
        dd ROM+gdt                      ; 000000c6 d6f00f00
ramgdtr:
        dw 0x2f                         ; 000000ca 2f00
        dd 0x1000                       ; 000000cc 00100000
idtr:
        dw 0x0f                         ; 000000d0 0f00
        dd ROM+gate-8*1                 ; 000000d2 fef00f00
gdt:
        dd 0x00000000, 0x00000000       ; 000000d6 0000000000000000
        dd 0x0000ffff, 0x00cf9b00       ; 000000de ffff0000009bcf00
        dd 0x0000ffff, 0x00cf9300       ; 000000e6 ffff00000093cf00
        dd 0x20000067, 0x00008900       ; 000000ee 6700002000890000
        dd 0x20800067, 0x00008900       ; 000000f6 6700802000890000
        dd 0x21000067, 0x00008900       ; 000000fe 6700002100890000
; the one gate of the interrupt table: a task gate
gate:
        dw 0                            ; 00000106 0000
        dw DEBUGGER                     ; 00000108 2000
        dw 0x8500                       ; 0000010a 0085
        dw 0                            ; 0000010c 0000

        times 0xff0-($-$$) db 0xf4
        bits 16
        jmp 0xff00:start                ; 00000ff0 ea000000ff
