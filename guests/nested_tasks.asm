; Tasks that nest: A calls B, which calls C, and two IRETs lead back by the links. Each shows its letter on the way out,
; and on the way back a small one. EDX has EFLAGS of A then, with NT as at first. Then A sets NT with a link to a TSS
; that is not busy: IRET is a fault of vector 10 in A. EAX has its code, EBX TR, and CL, CH, ESI and EDI the access bytes
; of the four TSS.
; rom 4096 bytes of f4
; run --steps 1000
        bits 16
        cpu 386
        org 0

CODE            equ 0x08
DATA            equ 0x10
TASK_A          equ 0x20
TASK_B          equ 0x28
TASK_C          equ 0x30
TASK_D          equ 0x38        ; it never runs
ROM             equ 0xff000     ; where this ROM stands
GDT             equ 0x1000      ; where the descriptors go
TASKS           equ 0x2000      ; where the TSS stand, 80h bytes each

start:
        o32 lgdt [cs:gdtr]              ; 00000000 2e660f0116f300
        o32 lidt [cs:idtr]              ; 00000007 2e660f011eff00
        mov eax,cr0                     ; 0000000e 0f20c0
        or al,1                         ; 00000011 0c01
        mov cr0,eax                     ; 00000013 0f22c0
        jmp dword CODE:ROM+protected    ; 00000016 66ea1ef00f000800

        bits 32
protected:
        mov ax,DATA                     ; 0000001e 66b81000
        mov ds,ax                       ; 00000022 8ed8
        mov es,ax                       ; 00000024 8ec0
        mov ss,ax                       ; 00000026 8ed0
        mov esp,0x9000                  ; 00000028 bc00900000
; the descriptors go to RAM, where they can be made busy
        mov esi,ROM+gdt                 ; 0000002d be05f10f00
        mov edi,GDT                     ; 00000032 bf00100000
        mov ecx,16                      ; 00000037 b910000000
        rep movsd                       ; 0000003c f3a5
        lgdt [ROM+ramgdtr]              ; 0000003e 0f0115f9f00f00
        mov ebx,TASKS+0x80              ; 00000045 bb80200000
        mov eax,ROM+second              ; 0000004a b88ff00f00
        call make                       ; 0000004f e878000000
        mov eax,ROM+third               ; 00000054 b8a5f00f00
        call make                       ; 00000059 e86e000000
        mov ax,TASK_A                   ; 0000005e 66b82000
        ltr ax                          ; 00000062 0f00d8
        push dword 2                    ; 00000065 6a02
        popf                            ; 00000067 9d
        mov byte [0xb8000],0x41         ; 00000068 c60500800b0041 "A"
        call TASK_B:0                   ; 0000006f 9a000000002800
        mov byte [0xb8008],0x61         ; 00000076 c60508800b0061 "a"
        pushf                           ; 0000007d 9c
        pop edx                         ; 0000007e 5a
        mov word [TASKS],TASK_D         ; 0000007f 66c705002000003800
        push dword 0x4002               ; 00000088 6802400000
        popf                            ; 0000008d 9d
        iret                            ; 0000008e cf

; B and C
second:
        mov byte [0xb8002],0x42         ; 0000008f c60502800b0042 "B"
        call TASK_C:0                   ; 00000096 9a000000003000
        mov byte [0xb8006],0x62         ; 0000009d c60506800b0062 "b"
        iret                            ; 000000a4 cf
third:
        mov byte [0xb8004],0x43         ; 000000a5 c60504800b0043 "C"
        iret                            ; 000000ac cf

; the handler of vector 10
fault:
        pop eax                         ; 000000ad 58
        str ebx                         ; 000000ae 0f00cb
        mov cl,[GDT+TASK_A+5]           ; 000000b1 8a0d25100000
        mov ch,[GDT+TASK_B+5]           ; 000000b7 8a2d2d100000
        movzx esi,byte [GDT+TASK_C+5]   ; 000000bd 0fb63535100000
        movzx edi,byte [GDT+TASK_D+5]   ; 000000c4 0fb63d3d100000
        hlt                             ; 000000cb f4

; a TSS at EBX, with EIP in EAX, and EBX then behind it
make:
        mov [ebx+0x20],eax              ; 000000cc 894320
        mov byte [ebx+0x24],0x02        ; 000000cf c6432402 EFLAGS
        lea edx,[ebx+0x1000]            ; 000000d3 8d9300100000
        mov [ebx+0x38],edx              ; 000000d9 895338 ESP
        mov byte [ebx+0x48],DATA        ; 000000dc c6434810 ES, CS, SS, DS
        mov byte [ebx+0x4c],CODE        ; 000000e0 c6434c08
        mov byte [ebx+0x50],DATA        ; 000000e4 c6435010
        mov byte [ebx+0x54],DATA        ; 000000e8 c6435410
        add ebx,0x80                    ; 000000ec 81c380000000
        ret                             ; 000000f2 c3

gdtr:
        dw 0x3f                         ; 000000f3 3f00
        dd ROM+gdt                      ; 000000f5 05f10f00
ramgdtr:
        dw 0x3f                         ; 000000f9 3f00
        dd GDT                          ; 000000fb 00100000
idtr:
        dw 0x57                         ; 000000ff 5700
        dd ROM+gate-8*10                ; 00000101 f5f00f00
gdt:
        dd 0x00000000, 0x00000000       ; 00000105 0000000000000000
        dd 0x0000ffff, 0x00cf9b00       ; 0000010d ffff0000009bcf00
        dd 0x0000ffff, 0x00cf9300       ; 00000115 ffff00000093cf00
        dd 0x00000000, 0x00000000       ; 0000011d 0000000000000000
        dd 0x20000067, 0x00008900       ; 00000125 6700002000890000
        dd 0x20800067, 0x00008900       ; 0000012d 6700802000890000
        dd 0x21000067, 0x00008900       ; 00000135 6700002100890000
        dd 0x21800067, 0x00008900       ; 0000013d 6700802100890000
; the one gate of the interrupt table: an interrupt gate of the 80386, with the offset FF000h + fault
gate:
        dw ROM+fault-0xf0000            ; 00000145 adf0
        dw CODE                         ; 00000147 0800
        dw 0x8e00                       ; 00000149 008e
        dw 0x000f                       ; 0000014b 0f00

        times 0xff0-($-$$) db 0xf4
        bits 16
        jmp 0xff00:start                ; 00000ff0 ea000000ff
