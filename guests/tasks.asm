; Two tasks that the timer switches: vector 20h is a task gate to a scheduler, which counts the tick, changes its
; own link to the other task's TSS and returns there by IRET. Each task counts in its own segment of the screen.
; rom 4096 bytes of f4
; run --steps 1000
        bits 16
        cpu 386
        org 0

CODE            equ 0x08
DATA            equ 0x10
START           equ 0x18        ; the TSS that this program begins in, for its registers to be saved in
SCHEDULER       equ 0x20
FIRST           equ 0x28
SECOND          equ 0x30
ROM             equ 0xff000     ; where this ROM stands
TASKS           equ 0x2000      ; where the four TSS stand, 80h bytes each
LINK            equ TASKS+0x80  ; the link of the scheduler

start:
        o32 lgdt [cs:gdtr]              ; 00000000 2e660f01160d01
        o32 lidt [cs:idtr]              ; 00000007 2e660f011e1901
; the interrupt controller: vectors from 20h on, the timer alone
        mov al,0x11                     ; 0000000e b011
        out 0x20,al                     ; 00000010 e620
        mov al,0x20                     ; 00000012 b020
        out 0x21,al                     ; 00000014 e621
        mov al,0x04                     ; 00000016 b004
        out 0x21,al                     ; 00000018 e621
        mov al,0x01                     ; 0000001a b001
        out 0x21,al                     ; 0000001c e621
        mov al,0xfe                     ; 0000001e b0fe
        out 0x21,al                     ; 00000020 e621
; counter 0: mode 2, a count of 10
        mov al,0x34                     ; 00000022 b034
        out 0x43,al                     ; 00000024 e643
        mov al,10                       ; 00000026 b00a
        out 0x40,al                     ; 00000028 e640
        mov al,0                        ; 0000002a b000
        out 0x40,al                     ; 0000002c e640
        mov eax,cr0                     ; 0000002e 0f20c0
        or al,1                         ; 00000031 0c01
        mov cr0,eax                     ; 00000033 0f22c0
        jmp dword CODE:ROM+protected    ; 00000036 66ea3ef00f000800

        bits 32
protected:
        mov ax,DATA                     ; 0000003e 66b81000
        mov ds,ax                       ; 00000042 8ed8
        mov es,ax                       ; 00000044 8ec0
        mov ss,ax                       ; 00000046 8ed0
        mov esp,0x9000                  ; 00000048 bc00900000
        mov dword [0xb8000],0x07300730  ; 0000004d c70500800b0030073007
        mov word [0xb8004],0x0730       ; 00000057 66c70504800b003007 "000"
; the descriptors go to RAM, where they can be made busy
        mov esi,ROM+gdt                 ; 00000060 be1ff10f00
        mov edi,0x1000                  ; 00000065 bf00100000
        mov ecx,14                      ; 0000006a b90e000000
        rep movsd                       ; 0000006f f3a5
        lgdt [ROM+ramgdtr]              ; 00000071 0f011513f10f00
; and the three tasks: EIP, EFLAGS with IF for the two, ESP, and segments
        mov ebx,TASKS+0x80              ; 00000078 bb80200000
        mov eax,ROM+scheduler           ; 0000007d b8ebf00f00
        mov ecx,0x0002                  ; 00000082 b902000000
        call make                       ; 00000087 e827000000
        mov eax,ROM+first               ; 0000008c b8d9f00f00
        mov ecx,0x0202                  ; 00000091 b902020000
        call make                       ; 00000096 e818000000
        mov eax,ROM+second              ; 0000009b b8e2f00f00
        call make                       ; 000000a0 e80e000000
        mov ax,START                    ; 000000a5 66b81800
        ltr ax                          ; 000000a9 0f00d8
        jmp FIRST:0                     ; 000000ac ea000000002800

; a TSS at EBX, with EIP in EAX and EFLAGS in ECX, and EBX then behind it
make:
        mov [ebx+0x20],eax              ; 000000b3 894320
        mov [ebx+0x24],ecx              ; 000000b6 894b24
        lea edx,[ebx+0x1000]            ; 000000b9 8d9300100000
        mov [ebx+0x38],edx              ; 000000bf 895338 ESP
        mov byte [ebx+0x48],DATA        ; 000000c2 c6434810 ES, CS, SS, DS
        mov byte [ebx+0x4c],CODE        ; 000000c6 c6434c08
        mov byte [ebx+0x50],DATA        ; 000000ca c6435010
        mov byte [ebx+0x54],DATA        ; 000000ce c6435410
        add ebx,0x80                    ; 000000d2 81c380000000
        ret                             ; 000000d8 c3

; each of the tasks counts on the screen, and waits for the next tick
first:
        inc byte [0xb8000]              ; 000000d9 fe0500800b00
        hlt                             ; 000000df f4
        jmp first                       ; 000000e0 ebf7
second:
        inc byte [0xb8002]              ; 000000e2 fe0502800b00
        hlt                             ; 000000e8 f4
        jmp second                      ; 000000e9 ebf7

; The scheduler, in its own task: the link has the task that was interrupted. Its descriptor is made available, and
; that of the other one busy, since IRET goes to a busy one.
scheduler:
        inc byte [0xb8004]              ; 000000eb fe0504800b00
        mov al,0x20                     ; 000000f1 b020
        out 0x20,al                     ; 000000f3 e620
        xor byte [LINK],FIRST^SECOND    ; 000000f5 80358020000018
        xor byte [0x1000+FIRST+5],2     ; 000000fc 80352d10000002
        xor byte [0x1000+SECOND+5],2    ; 00000103 80353510000002
        iret                            ; 0000010a cf
        jmp scheduler                   ; 0000010b ebde

gdtr:
        dw 0x37                         ; 0000010d 3700
        dd ROM+gdt                      ; 0000010f 1ff10f00
ramgdtr:
        dw 0x37                         ; 00000113 3700
        dd 0x1000                       ; 00000115 00100000
idtr:
        dw 0x107                        ; 00000119 0701
        dd ROM+gate-8*0x20              ; 0000011b 57f00f00
gdt:
        dd 0x00000000, 0x00000000       ; 0000011f 0000000000000000
        dd 0x0000ffff, 0x00cf9b00       ; 00000127 ffff0000009bcf00
        dd 0x0000ffff, 0x00cf9300       ; 0000012f ffff00000093cf00
        dd 0x20000067, 0x00008900       ; 00000137 6700002000890000
        dd 0x20800067, 0x00008900       ; 0000013f 6700802000890000
        dd 0x21000067, 0x00008900       ; 00000147 6700002100890000
        dd 0x21800067, 0x00008900       ; 0000014f 6700802100890000
; the one gate of the interrupt table: a task gate
gate:
        dw 0                            ; 00000157 0000
        dw SCHEDULER                    ; 00000159 2000
        dw 0x8500                       ; 0000015b 0085
        dw 0                            ; 0000015d 0000

        times 0xff0-($-$$) db 0xf4
        bits 16
        jmp 0xff00:start                ; 00000ff0 ea000000ff
