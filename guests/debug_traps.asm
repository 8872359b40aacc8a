; The debug traps of a program that steps by TF: one behind each iteration of a repeated move, with EIP at its prefix
; but for the last; none behind INT, whose handler does not step, nor behind its IRET; none behind the JMP to another
; task, but as the TSS of that has T, one with BT before its first instruction. Each trap and the INT have a line on
; the screen: the vector, DR6, CS, EIP and EFLAGS as they are saved, ECX and TR.
; rom 4096 bytes of f4
; run --steps 4000
        bits 16
        cpu 386
        org 0

CODE            equ 0x08
DATA            equ 0x10
STEPPED         equ 0x18        ; the TSS of the program
TRAPPED         equ 0x20        ; that with T
ROM             equ 0xff000     ; where this ROM stands
GDT             equ 0x1000      ; where the descriptors go
TASKS           equ 0x2000      ; where the two TSS stand, 80h bytes each
OTHER           equ TASKS+0x80  ; that with T
LINE            equ 0x3000      ; a doubleword: where the next line of the screen begins

start:
        o32 lgdt [cs:gdtr]              ; 00000000 2e660f01164601
        o32 lidt [cs:idtr]              ; 00000007 2e660f011e5201
        mov eax,cr0                     ; 0000000e 0f20c0
        or al,1                         ; 00000011 0c01
        mov cr0,eax                     ; 00000013 0f22c0
        jmp dword CODE:ROM+protected    ; 00000016 66ea1ef00f000800

        bits 32
protected:
        mov ax,DATA                     ; 0000001e 66b81000
        mov ds,ax                       ; 00000022 8ed8
        mov es,ax                       ; 00000024 8ec0
        mov ss,ax                       ; 00000026 8ed0
        mov esp,0x9000                  ; 00000028 bc00900000
        mov dword [LINE],0xb8000        ; 0000002d c7050030000000800b00
; the descriptors go to RAM, where they can be made busy
        mov esi,ROM+gdt                 ; 00000037 be58f10f00
        mov edi,GDT                     ; 0000003c bf00100000
        mov ecx,10                      ; 00000041 b90a000000
        rep movsd                       ; 00000046 f3a5
        lgdt [ROM+ramgdtr]              ; 00000048 0f01154cf10f00
        mov dword [OTHER+0x20],ROM+trapped ; 0000004f c705a0200000bcf00f00 EIP
        mov byte [OTHER+0x24],0x02      ; 00000059 c605a420000002 EFLAGS
        mov byte [OTHER+0x2c],0x77      ; 00000060 c605ac20000077 ECX
        mov dword [OTHER+0x38],0xa000   ; 00000067 c705b820000000a00000 ESP
        mov byte [OTHER+0x48],DATA      ; 00000071 c605c820000010 ES, CS, SS, DS
        mov byte [OTHER+0x4c],CODE      ; 00000078 c605cc20000008
        mov byte [OTHER+0x50],DATA      ; 0000007f c605d020000010
        mov byte [OTHER+0x54],DATA      ; 00000086 c605d420000010
        mov byte [OTHER+0x64],1         ; 0000008d c605e420000001 T
        mov ax,STEPPED                  ; 00000094 66b81800
        ltr ax                          ; 00000098 0f00d8
; the program, which steps from the move on: POPF itself began without TF
        mov esi,ROM+digits              ; 0000009b be36f10f00
        mov edi,0x4000                  ; 000000a0 bf00400000
        mov ecx,3                       ; 000000a5 b903000000
        push dword 0x102                ; 000000aa 6802010000 TF
        popf                            ; 000000af 9d
        rep movsb                       ; 000000b0 f3a4
        int 2                           ; 000000b2 cd02
        nop                             ; 000000b4 90
        jmp TRAPPED:0                   ; 000000b5 ea000000002000

; the other task
trapped:
        nop                             ; 000000bc 90
        hlt                             ; 000000bd f4

; the handlers of the vectors 1 and 2
trap:
        push dword 1                    ; 000000be 6a01
        jmp show                        ; 000000c0 eb02
interrupt:
        push dword 2                    ; 000000c2 6a02

; a line for a vector, which lies on the stack below EIP, CS and EFLAGS; and DR6 is 0 then
show:
        pushad                          ; 000000c4 60
        mov ebp,esp                     ; 000000c5 89e5
        mov edi,[LINE]                  ; 000000c7 8b3d00300000
        mov eax,[ebp+0x20]              ; 000000cd 8b4520 the vector
        call number                     ; 000000d0 e843000000
        mov eax,dr6                     ; 000000d5 0f21f0
        call number                     ; 000000d8 e83b000000
        mov eax,[ebp+0x28]              ; 000000dd 8b4528 CS
        call number                     ; 000000e0 e833000000
        mov eax,[ebp+0x24]              ; 000000e5 8b4524 EIP
        call number                     ; 000000e8 e82b000000
        mov eax,[ebp+0x2c]              ; 000000ed 8b452c EFLAGS
        call number                     ; 000000f0 e823000000
        mov eax,[ebp+0x18]              ; 000000f5 8b4518 ECX
        call number                     ; 000000f8 e81b000000
        str eax                         ; 000000fd 0f00c8
        call number                     ; 00000100 e813000000
        add edi,160-7*18                ; 00000105 83c722
        mov [LINE],edi                  ; 00000108 893d00300000
        xor eax,eax                     ; 0000010e 31c0
        mov dr6,eax                     ; 00000110 0f23f0
        popad                           ; 00000113 61
        add esp,4                       ; 00000114 83c404
        iret                            ; 00000117 cf

; EAX in eight digits at EDI, and EDI then behind a space
number:
        mov ecx,8                       ; 00000118 b908000000
.digit:
        rol eax,4                       ; 0000011d c1c004
        mov edx,eax                     ; 00000120 89c2
        and edx,15                      ; 00000122 83e20f
        mov dl,[ROM+digits+edx]         ; 00000125 8a9236f10f00
        mov [edi],dl                    ; 0000012b 8817
        add edi,2                       ; 0000012d 83c702
        loop .digit                     ; 00000130 e2eb
        add edi,2                       ; 00000132 83c702
        ret                             ; 00000135 c3

digits:
        db "0123456789abcdef"           ; 00000136 30313233343536373839616263646566
gdtr:
        dw 0x27                         ; 00000146 2700
        dd ROM+gdt                      ; 00000148 58f10f00
ramgdtr:
        dw 0x27                         ; 0000014c 2700
        dd GDT                          ; 0000014e 00100000
idtr:
        dw 0x17                         ; 00000152 1700
        dd ROM+gates-8                  ; 00000154 78f10f00
gdt:
        dd 0x00000000, 0x00000000       ; 00000158 0000000000000000
        dd 0x0000ffff, 0x00cf9b00       ; 00000160 ffff0000009bcf00
        dd 0x0000ffff, 0x00cf9300       ; 00000168 ffff00000093cf00
        dd 0x20000067, 0x00008900       ; 00000170 6700002000890000
        dd 0x20800067, 0x00008900       ; 00000178 6700802000890000
; the gates of vectors 1 and 2: interrupt gates of the 80386, with the offsets FF000h + trap and FF000h + interrupt
gates:
        dw ROM+trap-0xf0000             ; 00000180 bef0
        dw CODE                         ; 00000182 0800
        dw 0x8e00                       ; 00000184 008e
        dw 0x000f                       ; 00000186 0f00
        dw ROM+interrupt-0xf0000        ; 00000188 c2f0
        dw CODE                         ; 0000018a 0800
        dw 0x8e00                       ; 0000018c 008e
        dw 0x000f                       ; 0000018e 0f00

        times 0xff0-($-$$) db 0xf4
        bits 16
        jmp 0xff00:start                ; 00000ff0 ea000000ff
