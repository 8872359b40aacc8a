; A JMP to a task whose stack is not present: the switch is made, and vector 12 is raised in the new task, with the code
; of the selector. Its gate is a task gate, so a third task takes it, and finds the code on its own stack. EAX has the
; code, EBX TR, ECX the third task's link, DL, DH and BP the access bytes of the first, second and third TSS; ESI and EDI
; are EIP and EBX of the first task, as they were saved.
; rom 4096 bytes of f4
; run --steps 1000
        bits 16
        cpu 386
        org 0

CODE            equ 0x08
DATA            equ 0x10
ABSENT          equ 0x18        ; a stack that is not present
FIRST           equ 0x20
SECOND          equ 0x28
THIRD           equ 0x30
ROM             equ 0xff000     ; where this ROM stands
GDT             equ 0x1000      ; where the descriptors go
TASKS           equ 0x2000      ; where the TSS stand, 80h bytes each

start:
        o32 lgdt [cs:gdtr]              ; 00000000 2e660f0116cb00
        o32 lidt [cs:idtr]              ; 00000007 2e660f011ed700
        mov eax,cr0                     ; 0000000e 0f20c0
        or al,1                         ; 00000011 0c01
        mov cr0,eax                     ; 00000013 0f22c0
        jmp dword CODE:ROM+protected    ; 00000016 66ea1ef00f000800

        bits 32
protected:
        mov ax,DATA                     ; 0000001e 66b81000
        mov ds,ax                       ; 00000022 8ed8
        mov es,ax                       ; 00000024 8ec0
        mov ss,ax                       ; 00000026 8ed0
        mov esp,0x9000                  ; 00000028 bc00900000
; the descriptors go to RAM, where they can be made busy
        mov esi,ROM+gdt                 ; 0000002d beddf00f00
        mov edi,GDT                     ; 00000032 bf00100000
        mov ecx,14                      ; 00000037 b90e000000
        rep movsd                       ; 0000003c f3a5
        lgdt [ROM+ramgdtr]              ; 0000003e 0f0115d1f00f00
        mov ebx,TASKS+0x80              ; 00000045 bb80200000
        mov eax,ROM+second              ; 0000004a b876f00f00
        call make                       ; 0000004f e850000000
        mov byte [ebx-0x80+0x50],ABSENT ; 00000054 c643d018
        mov eax,ROM+third               ; 00000058 b877f00f00
        call make                       ; 0000005d e842000000
        mov ax,FIRST                    ; 00000062 66b82000
        ltr ax                          ; 00000066 0f00d8
        mov ebx,0x0badcafe              ; 00000069 bbfecaad0b
        jmp SECOND:0                    ; 0000006e ea000000002800
behind:
        hlt                             ; 00000075 f4

; the second task, which never runs an instruction
second:
        hlt                             ; 00000076 f4

; the third, at vector 12
third:
        mov eax,[esp]                   ; 00000077 8b0424
        str ebx                         ; 0000007a 0f00cb
        movzx ecx,word [TASKS+0x100]    ; 0000007d 0fb70d00210000
        mov dl,[GDT+FIRST+5]            ; 00000084 8a1525100000
        mov dh,[GDT+SECOND+5]           ; 0000008a 8a352d100000
        movzx ebp,byte [GDT+THIRD+5]    ; 00000090 0fb62d35100000
        mov esi,[TASKS+0x20]            ; 00000097 8b3520200000
        mov edi,[TASKS+0x34]            ; 0000009d 8b3d34200000
        hlt                             ; 000000a3 f4

; a TSS at EBX, with EIP in EAX, and EBX then behind it
make:
        mov [ebx+0x20],eax              ; 000000a4 894320
        mov byte [ebx+0x24],0x02        ; 000000a7 c6432402 EFLAGS
        lea edx,[ebx+0x1000]            ; 000000ab 8d9300100000
        mov [ebx+0x38],edx              ; 000000b1 895338 ESP
        mov byte [ebx+0x48],DATA        ; 000000b4 c6434810 ES, CS, SS, DS
        mov byte [ebx+0x4c],CODE        ; 000000b8 c6434c08
        mov byte [ebx+0x50],DATA        ; 000000bc c6435010
        mov byte [ebx+0x54],DATA        ; 000000c0 c6435410
        add ebx,0x80                    ; 000000c4 81c380000000
        ret                             ; 000000ca c3

gdtr:
        dw 0x37                         ; 000000cb 3700
        dd ROM+gdt                      ; 000000cd ddf00f00
ramgdtr:
        dw 0x37                         ; 000000d1 3700
        dd GDT                          ; 000000d3 00100000
idtr:
        dw 0x67                         ; 000000d7 6700
        dd ROM+gate-8*12                ; 000000d9 b5f00f00
gdt:
        dd 0x00000000, 0x00000000       ; 000000dd 0000000000000000
        dd 0x0000ffff, 0x00cf9b00       ; 000000e5 ffff0000009bcf00
        dd 0x0000ffff, 0x00cf9300       ; 000000ed ffff00000093cf00
        dd 0x0000ffff, 0x00cf1300       ; 000000f5 ffff00000013cf00
        dd 0x20000067, 0x00008900       ; 000000fd 6700002000890000
        dd 0x20800067, 0x00008900       ; 00000105 6700802000890000
        dd 0x21000067, 0x00008900       ; 0000010d 6700002100890000
; the one gate of the interrupt table: a task gate
gate:
        dw 0                            ; 00000115 0000
        dw THIRD                        ; 00000117 3000
        dw 0x8500                       ; 00000119 0085
        dw 0                            ; 0000011b 0000

        times 0xff0-($-$$) db 0xf4
        bits 16
        jmp 0xff00:start                ; 00000ff0 ea000000ff
