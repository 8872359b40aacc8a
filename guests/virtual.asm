; A task of V86 and its monitor. CLI, STI, INT and IRET of the task are faults of vector 13 where IOPL is below 3: the
; monitor does for it what they do in real mode, with an interrupt flag of its own, and ends at the task's HLT.
; The task's interrupt goes by the table at 0, as in real mode, and its handler is code of V86 too.
; rom 4096 bytes of f4
; run --steps 1000
        bits 16
        cpu 386
        org 0

CODE            equ 0x08
DATA            equ 0x10
TSS             equ 0x18
ROM             equ 0xff000     ; where this ROM stands
TASK            equ 0x2000      ; where the TSS stands
FLAG            equ 0x3000      ; the interrupt flag of the task: 2 where it is set, as in bits 8 to 15 of FLAGS

; the monitor's stack behind PUSHAD: the code, and what the fault saved
SAVED_EIP       equ 36
SAVED_CS        equ 40
SAVED_FLAGS     equ 44
SAVED_ESP       equ 48
SAVED_SS        equ 52

start:
        xor ax,ax                       ; 00000000 31c0
        mov ds,ax                       ; 00000002 8ed8
        mov word [4*0x60],service       ; 00000004 c70680019501
        mov word [4*0x60+2],0xff00      ; 0000000a c706820100ff
        o32 lgdt [cs:gdtr]              ; 00000010 2e660f0116a101
        o32 lidt [cs:idtr]              ; 00000017 2e660f011ead01
        mov eax,cr0                     ; 0000001e 0f20c0
        or al,1                         ; 00000021 0c01
        mov cr0,eax                     ; 00000023 0f22c0
        jmp dword CODE:ROM+protected    ; 00000026 66ea2ef00f000800

        bits 32
protected:
        mov ax,DATA                     ; 0000002e 66b81000
        mov ds,ax                       ; 00000032 8ed8
        mov ss,ax                       ; 00000034 8ed0
        mov esp,0x9000                  ; 00000036 bc00900000
; the descriptors go to RAM, where the TSS can be made busy
        mov dword [0x1008],0x0000ffff   ; 0000003b c70508100000ffff0000
        mov dword [0x100c],0x00cf9b00   ; 00000045 c7050c100000009bcf00
        mov dword [0x1010],0x0000ffff   ; 0000004f c70510100000ffff0000
        mov dword [0x1014],0x00cf9300   ; 00000059 c705141000000093cf00
        mov dword [0x1018],0x20000067   ; 00000063 c7051810000067000020
        mov dword [0x101c],0x00008900   ; 0000006d c7051c10000000890000
        lgdt [ROM+ramgdtr]              ; 00000077 0f0115a7f10f00
        mov dword [TASK+4],0x9000       ; 0000007e c7050420000000900000 the stack of level 0
        mov word [TASK+8],DATA          ; 00000088 66c705082000001000
        mov ax,TSS                      ; 00000091 66b81800
        ltr ax                          ; 00000095 0f00d8
; to V86: GS, FS, DS, ES, SS, ESP, EFLAGS with VM, CS, EIP
        push dword 0                    ; 00000098 6a00
        push dword 0                    ; 0000009a 6a00
        push dword 0                    ; 0000009c 6a00
        push dword 0xb800               ; 0000009e 6800b80000
        push dword 0                    ; 000000a3 6a00
        push dword 0x7000               ; 000000a5 6800700000
        push dword 0x20002              ; 000000aa 6802000200
        push dword 0xff00               ; 000000af 6800ff0000
        push dword virtual              ; 000000b4 6882010000
        iret                            ; 000000b9 cf

; the handler of vector 13
fault:
        pushad                          ; 000000ba 60
        mov ax,DATA                     ; 000000bb 66b81000
        mov ds,ax                       ; 000000bf 8ed8
        movzx edx,word [esp+SAVED_SS]   ; 000000c1 0fb7542434 EDX: the top of the task's stack
        shl edx,4                       ; 000000c6 c1e204
        add edx,[esp+SAVED_ESP]         ; 000000c9 03542430
        movzx ebx,word [esp+SAVED_CS]   ; 000000cd 0fb75c2428
        shl ebx,4                       ; 000000d2 c1e304
        add ebx,[esp+SAVED_EIP]         ; 000000d5 035c2424
        mov ax,[ebx]                    ; 000000d9 668b03 AL: the instruction, AH: the vector of INT
        cmp al,0xcd                     ; 000000dc 3ccd
        jz interrupt                    ; 000000de 741d
        cmp al,0xcf                     ; 000000e0 3ccf
        jz return                       ; 000000e2 7467
        sub al,0xfa                     ; 000000e4 2cfa CLI
        jz flag                         ; 000000e6 740a
        cmp al,1                        ; 000000e8 3c01 STI
        jnz stop                        ; 000000ea 0f858a000000
        inc al                          ; 000000f0 fec0
flag:
        mov [FLAG],al                   ; 000000f2 a200300000
        inc dword [esp+SAVED_EIP]       ; 000000f7 ff442424
        jmp short leave_monitor         ; 000000fb eb78
interrupt:
        add dword [esp+SAVED_EIP],2     ; 000000fd 8344242402
        sub dword [esp+SAVED_ESP],6     ; 00000102 836c243006
        mov ecx,[esp+SAVED_FLAGS]       ; 00000107 8b4c242c
        or ch,[FLAG]                    ; 0000010b 0a2d00300000
        mov [edx-2],cx                  ; 00000111 66894afe
        mov ecx,[esp+SAVED_CS]          ; 00000115 8b4c2428
        mov [edx-4],cx                  ; 00000119 66894afc
        mov ecx,[esp+SAVED_EIP]         ; 0000011d 8b4c2424
        mov [edx-6],cx                  ; 00000121 66894afa
        movzx eax,ah                    ; 00000125 0fb6c4
        mov cx,[4*eax]                  ; 00000128 668b0c8500000000
        mov [esp+SAVED_EIP],cx          ; 00000130 66894c2424
        mov cx,[4*eax+2]                ; 00000135 668b0c8502000000
        mov [esp+SAVED_CS],cx           ; 0000013d 66894c2428
        mov byte [FLAG],0               ; 00000142 c6050030000000
        jmp short leave_monitor         ; 00000149 eb2a
return:
        add dword [esp+SAVED_ESP],6     ; 0000014b 8344243006
        mov cx,[edx]                    ; 00000150 668b0a
        mov [esp+SAVED_EIP],cx          ; 00000153 66894c2424
        mov cx,[edx+2]                  ; 00000158 668b4a02
        mov [esp+SAVED_CS],cx           ; 0000015c 66894c2428
        mov cx,[edx+4]                  ; 00000161 668b4a04
        and ch,2                        ; 00000165 80e502
        mov [FLAG],ch                   ; 00000168 882d00300000
        mov cl,[edx+4]                  ; 0000016e 8a4a04
        mov [esp+SAVED_FLAGS],cl        ; 00000171 884c242c
leave_monitor:
        popad                           ; 00000175 61
        add esp,4                       ; 00000176 83c404 the code
        iret                            ; 00000179 cf
; any other ends the run: EAX has the task's flag
stop:
        movzx eax,byte [FLAG]           ; 0000017a 0fb60500300000
        hlt                             ; 00000181 f4

        bits 16
; the task, with ES at the screen
virtual:
        sti                             ; 00000182 fb
        mov word [es:0x0000],0x0756     ; 00000183 26c70600005607 "V"
        int 0x60                        ; 0000018a cd60
        mov word [es:0x0004],0x0756     ; 0000018c 26c70604005607 "V"
        cli                             ; 00000193 fa
        hlt                             ; 00000194 f4
; its interrupt shows the flag that INT has saved
service:
        mov bp,sp                       ; 00000195 89e5
        mov al,[bp+5]                   ; 00000197 8a4605
        add al,0x30                     ; 0000019a 0430
        mov [es:0x0002],al              ; 0000019c 26a20200
        iret                            ; 000001a0 cf

gdtr:
        dw 0x17                         ; 000001a1 1700
        dd ROM+gdt                      ; 000001a3 b3f10f00
ramgdtr:
        dw 0x1f                         ; 000001a7 1f00
        dd 0x1000                       ; 000001a9 00100000
idtr:
        dw 0x6f                         ; 000001ad 6f00
        dd ROM+gate-8*13                ; 000001af 63f10f00
gdt:
        dd 0x00000000, 0x00000000       ; 000001b3 0000000000000000
        dd 0x0000ffff, 0x00cf9b00       ; 000001bb ffff0000009bcf00
        dd 0x0000ffff, 0x00cf9300       ; 000001c3 ffff00000093cf00
; the one gate of the interrupt table: an interrupt gate of the 80386, with the offset FF000h + fault
gate:
        dw ROM+fault-0xf0000            ; 000001cb baf0
        dw CODE                         ; 000001cd 0800
        dw 0x8e00                       ; 000001cf 008e
        dw 0x000f                       ; 000001d1 0f00

        times 0xff0-($-$$) db 0xf4
        jmp 0xff00:start                ; 00000ff0 ea000000ff
