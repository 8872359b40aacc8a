; A small system: both interrupt controllers and the timer, paging, two tasks at level 3 and one of V86, between which
; the timer's handler switches in turn. Task A reads 64 sectors, of which each is told by interrupt 14, and sums them
; up; task B prints LINE 00 to LINE 24, one every tenth tick, and then shows numbers behind them again and again; task V
; counts in V86 and asks for CLI and STI, which a monitor does for it. Without a disk A only counts, and without pulses
; of the timer's clock it is alone.
; rom 131072 bytes of f4
; run --steps 100000
        bits 16
        cpu 386
        org 0

; selectors: code and data of level 0 and of level 3, and the TSS of this program, A, B and V
CODE            equ 0x08
DATA            equ 0x10
USER_CODE       equ 0x1b
USER_DATA       equ 0x23
START           equ 0x28
TASK_A          equ 0x30
TASK_B          equ 0x38
TASK_V          equ 0x40
ROM             equ 0xe0000     ; where this ROM stands
; the system's pages, at their own addresses
IDT             equ 0x0800
GDT             equ 0x1000
DIRECTORY       equ 0x2000
TABLE           equ 0x3000
TABLE_4M        equ 0x4000      ; of the page at 400000h
TASKS           equ 0x5000      ; the four TSS, 100h bytes each
STACKS          equ 0x8000      ; their stacks of level 0, below 9000h, A000h and so on
; a page that the tasks may only read
TICKS           equ 0x10000
DISK_TICKS      equ 0x10004
NEXT            equ 0x10008     ; a pointer to the task that runs
; pages that they may write
SUM             equ 0x11000     ; of the 64 sectors
COUNT_A         equ 0x11004
COUNT_V         equ 0x18000     ; segment 1800h of V86
FLAG_V          equ 0x10010     ; the interrupt flag of V: 2 where it is set
BUFFER          equ 0x400000    ; a sector, by a page whose frame is at 20000h
SCREEN          equ 0xb8000

start:
        o32 lgdt [cs:gdtr]              ; 00000000 2e660f01166503
        o32 lidt [cs:idtr]              ; 00000007 2e660f011e7103
; the controllers: vectors from 20h and from 28h on; the timer, the second controller, and the disk
        mov al,0x11                     ; 0000000e b011
        out 0x20,al                     ; 00000010 e620
        out 0xa0,al                     ; 00000012 e6a0
        mov al,0x20                     ; 00000014 b020
        out 0x21,al                     ; 00000016 e621
        mov al,0x28                     ; 00000018 b028
        out 0xa1,al                     ; 0000001a e6a1
        mov al,0x04                     ; 0000001c b004
        out 0x21,al                     ; 0000001e e621
        mov al,0x02                     ; 00000020 b002
        out 0xa1,al                     ; 00000022 e6a1
        mov al,0x01                     ; 00000024 b001
        out 0x21,al                     ; 00000026 e621
        out 0xa1,al                     ; 00000028 e6a1
        mov al,0xfa                     ; 0000002a b0fa
        out 0x21,al                     ; 0000002c e621
        mov al,0xbf                     ; 0000002e b0bf
        out 0xa1,al                     ; 00000030 e6a1
; counter 0: mode 2, a count of 1,193
        mov al,0x34                     ; 00000032 b034
        out 0x43,al                     ; 00000034 e643
        mov al,1193 & 0xff              ; 00000036 b0a9
        out 0x40,al                     ; 00000038 e640
        mov al,1193 >> 8                ; 0000003a b004
        out 0x40,al                     ; 0000003c e640
        mov eax,cr0                     ; 0000003e 0f20c0
        or al,1                         ; 00000041 0c01
        mov cr0,eax                     ; 00000043 0f22c0
        jmp dword CODE:ROM+protected    ; 00000046 66ea4e000e000800

        bits 32
protected:
        mov ax,DATA                     ; 0000004e 66b81000
        mov ds,ax                       ; 00000052 8ed8
        mov es,ax                       ; 00000054 8ec0
        mov ss,ax                       ; 00000056 8ed0
        mov esp,STACKS+0x1000           ; 00000058 bc00900000
; the descriptors, in RAM, where a TSS can be made busy
        mov esi,ROM+gdt                 ; 0000005d be77030e00
        mov edi,GDT                     ; 00000062 bf00100000
        mov ecx,18                      ; 00000067 b912000000
        rep movsd                       ; 0000006c f3a5
        lgdt [ROM+ramgdtr]              ; 0000006e 0f01156b030e00
; interrupt gates, to code whose addresses have the upper half 000Eh
        mov dword [IDT+8*13],(CODE<<16)+monitor ; 00000075 c7056808000020020800
        mov dword [IDT+8*13+4],0x000e8e00 ; 0000007f c7056c080000008e0e00
        mov dword [IDT+8*0x20],(CODE<<16)+timer ; 00000089 c70500090000ce010800
        mov dword [IDT+8*0x20+4],0x000e8e00 ; 00000093 c70504090000008e0e00
        mov dword [IDT+8*0x2e],(CODE<<16)+disk ; 0000009d c7057009000003020800
        mov dword [IDT+8*0x2e+4],0x000e8e00 ; 000000a7 c70574090000008e0e00
; page tables: 16 pages of the system, one that may only be read, others of the first mebibyte; and the buffer
        mov edi,TABLE                   ; 000000b1 bf00300000
        mov eax,0x003                   ; 000000b6 b803000000
        mov ecx,16                      ; 000000bb b910000000
        call pages                      ; 000000c0 e844000000
        mov al,0x05                     ; 000000c5 b005
        inc ecx                         ; 000000c7 41
        call pages                      ; 000000c8 e83c000000
        mov al,0x07                     ; 000000cd b007
        mov cl,256-17                   ; 000000cf b1ef
        call pages                      ; 000000d1 e833000000
        mov dword [TABLE_4M],0x20007    ; 000000d6 c7050040000007000200
        mov dword [DIRECTORY],TABLE+7   ; 000000e0 c7050020000007300000
        mov dword [DIRECTORY+4],TABLE_4M+7 ; 000000ea c7050420000007400000
        mov eax,DIRECTORY               ; 000000f4 b800200000
        mov cr3,eax                     ; 000000f9 0f22d8
        mov eax,cr0                     ; 000000fc 0f20c0
        or eax,0x80000000               ; 000000ff 0d00000080
        mov cr0,eax                     ; 00000104 0f22c0
        jmp short paged                 ; 00000107 eb09
; so many entries at EDI, the first of which EAX has
pages:
        stosd                           ; 00000109 ab
        add eax,0x1000                  ; 0000010a 0500100000
        loop pages                      ; 0000010f e2f8
        ret                             ; 00000111 c3
; the tasks. A may use the ports of the disk: its bitmap is behind the 68h bytes of its TSS
paged:
        mov ebx,TASKS+0x100             ; 00000112 bb00510000
        mov edx,STACKS+0x2000           ; 00000117 ba00a00000
        mov eax,ROM+task_a              ; 0000011c b84e020e00
        call make                       ; 00000121 e867000000
        mov eax,ROM+task_b              ; 00000126 b8b2020e00
        call make                       ; 0000012b e85d000000
        mov eax,task_v-0x10000          ; 00000130 b800000000
        call make                       ; 00000135 e853000000
        sub ebx,0x100                   ; 0000013a 81eb00010000
        mov dword [ebx+0x24],0x20202    ; 00000140 c7432402020200 EFLAGS with VM and IF
        mov dword [ebx+0x38],0x1000     ; 00000147 c7433800100000 ESP
        mov word [ebx+0x4c],0xf000      ; 0000014e 66c7434c00f0 CS, SS and DS
        mov word [ebx+0x50],0x1900      ; 00000154 66c743500019
        mov word [ebx+0x54],COUNT_V>>4  ; 0000015a 66c743540018
        mov edi,TASKS+0x100+0x68        ; 00000160 bf68510000
        mov al,0xff                     ; 00000165 b0ff
        mov ecx,0x40                    ; 00000167 b940000000
        rep stosb                       ; 0000016c f3aa
        mov byte [TASKS+0x100+0x68+0x1f0/8],0 ; 0000016e c605a651000000
        mov dword [NEXT+4],TASK_A       ; 00000175 c7050c00010030000000
        mov ax,START                    ; 0000017f 66b82800
        ltr ax                          ; 00000183 0f00d8
        jmp TASK_A:0                    ; 00000186 ea000000003000

; a TSS at EBX, with its stack of level 0 below EDX and EIP in EAX; EBX and EDX then go on to the next
make:
        mov [ebx+0x04],edx              ; 0000018d 895304 ESP and SS of level 0
        mov byte [ebx+0x08],DATA        ; 00000190 c6430810
        mov dword [ebx+0x1c],DIRECTORY  ; 00000194 c7431c00200000
        mov [ebx+0x20],eax              ; 0000019b 894320
        mov word [ebx+0x24],0x202       ; 0000019e 66c743240202 EFLAGS with IF
        lea ecx,[edx+0x12000-STACKS]    ; 000001a4 8d8a00a00000
        mov [ebx+0x38],ecx              ; 000001aa 894b38 ESP
        mov byte [ebx+0x48],USER_DATA   ; 000001ad c6434823 ES, CS, SS, DS
        mov byte [ebx+0x4c],USER_CODE   ; 000001b1 c6434c1b
        mov byte [ebx+0x50],USER_DATA   ; 000001b5 c6435023
        mov byte [ebx+0x54],USER_DATA   ; 000001b9 c6435423
        mov byte [ebx+0x66],0x68        ; 000001bd c6436668 where the bitmap begins
        add ebx,0x100                   ; 000001c1 81c300010000
        add edx,0x1000                  ; 000001c7 81c200100000
        ret                             ; 000001cd c3

; the timer: the next of the three tasks goes on where it was switched from
timer:
        push eax                        ; 000001ce 50
        push ds                         ; 000001cf 1e
        mov ax,DATA                     ; 000001d0 66b81000
        mov ds,ax                       ; 000001d4 8ed8
        inc dword [TICKS]               ; 000001d6 ff0500000100
        mov al,0x20                     ; 000001dc b020
        out 0x20,al                     ; 000001de e620
        mov ax,[NEXT+4]                 ; 000001e0 66a10c000100
        add ax,8                        ; 000001e6 6683c008
        cmp ax,TASK_V                   ; 000001ea 6683f840
        jna .known                      ; 000001ee 7604
        mov ax,TASK_A                   ; 000001f0 66b83000
.known:
        mov [NEXT+4],ax                 ; 000001f4 66a30c000100
        jmp far [NEXT]                  ; 000001fa ff2d08000100
        pop ds                          ; 00000200 1f
        pop eax                         ; 00000201 58
        iret                            ; 00000202 cf

; the disk, which lets its line fall when its status is read
disk:
        pushad                          ; 00000203 60
        push ds                         ; 00000204 1e
        mov ax,DATA                     ; 00000205 66b81000
        mov ds,ax                       ; 00000209 8ed8
        inc dword [DISK_TICKS]          ; 0000020b ff0504000100
        mov edx,0x1f7                   ; 00000211 baf7010000
        in al,dx                        ; 00000216 ec
        mov al,0x20                     ; 00000217 b020
        out 0xa0,al                     ; 00000219 e6a0
        out 0x20,al                     ; 0000021b e620
        pop ds                          ; 0000021d 1f
        popad                           ; 0000021e 61
        iret                            ; 0000021f cf

; vector 13: CLI and STI of V
monitor:
        pushad                          ; 00000220 60
        mov ax,DATA                     ; 00000221 66b81000
        mov ds,ax                       ; 00000225 8ed8
        movzx ebx,word [esp+40]         ; 00000227 0fb75c2428 CS and EIP
        shl ebx,4                       ; 0000022c c1e304
        add ebx,[esp+36]                ; 0000022f 035c2424
        mov al,[ebx]                    ; 00000233 8a03
        sub al,0xfa                     ; 00000235 2cfa CLI
        jz .flag                        ; 00000237 7406
        cmp al,1                        ; 00000239 3c01 STI
        jnz .wrong                      ; 0000023b 7510
        inc al                          ; 0000023d fec0
.flag:
        mov [FLAG_V],al                 ; 0000023f a210000100
        inc dword [esp+36]              ; 00000244 ff442424
        popad                           ; 00000248 61
        add esp,4                       ; 00000249 83c404 the code
        iret                            ; 0000024c cf
.wrong:
        hlt                             ; 0000024d f4

; A: 64 sectors from the first on, each read when its interrupt came, and summed up by doublewords
task_a:
        mov edx,0x1f7                   ; 0000024e baf7010000
        in al,dx                        ; 00000253 ec
        test al,0x40                    ; 00000254 a840
        jz .count                       ; 00000256 7452
        mov edx,0x1f2                   ; 00000258 baf2010000
        mov al,64                       ; 0000025d b040
        out dx,al                       ; 0000025f ee
        inc edx                         ; 00000260 42
        mov al,0                        ; 00000261 b000
        out dx,al                       ; 00000263 ee
        inc edx                         ; 00000264 42
        out dx,al                       ; 00000265 ee
        inc edx                         ; 00000266 42
        out dx,al                       ; 00000267 ee
        inc edx                         ; 00000268 42
        mov al,0xe0                     ; 00000269 b0e0
        out dx,al                       ; 0000026b ee
        inc edx                         ; 0000026c 42
        mov al,0x20                     ; 0000026d b020
        out dx,al                       ; 0000026f ee
        xor ebp,ebp                     ; 00000270 31ed
.sector:
        inc ebp                         ; 00000272 45
.wait:
        cmp [DISK_TICKS],ebp            ; 00000273 392d04000100
        jb .wait                        ; 00000279 72f8
        mov edx,0x1f0                   ; 0000027b baf0010000
        mov edi,BUFFER                  ; 00000280 bf00004000
        mov ecx,128                     ; 00000285 b980000000
        rep insd                        ; 0000028a f36d
        mov esi,BUFFER                  ; 0000028c be00004000
        mov ecx,128                     ; 00000291 b980000000
.sum:
        lodsd                           ; 00000296 ad
        rol dword [SUM],1               ; 00000297 d10500100100
        add [SUM],eax                   ; 0000029d 010500100100
        loop .sum                       ; 000002a3 e2f1
        cmp ebp,64                      ; 000002a5 83fd40
        jb .sector                      ; 000002a8 72c8
.count:
        inc dword [COUNT_A]             ; 000002aa ff0504100100
        jmp .count                      ; 000002b0 ebf8

; B: the lines, and then the numbers
task_b:
        xor ebp,ebp                     ; 000002b2 31ed
.line:
        mov edi,ebp                     ; 000002b4 89ef
        imul edi,edi,160                ; 000002b6 69ffa0000000
        add edi,SCREEN                  ; 000002bc 81c700800b00
        mov esi,ROM+word_line           ; 000002c2 be4f030e00
        mov ah,0x07                     ; 000002c7 b407
.letter:
        lodsb                           ; 000002c9 ac
        cmp al,0                        ; 000002ca 3c00
        jz .number                      ; 000002cc 7404
        stosw                           ; 000002ce 66ab
        jmp .letter                     ; 000002d0 ebf7
.number:
        mov eax,ebp                     ; 000002d2 89e8
        mov bl,10                       ; 000002d4 b30a
        div bl                          ; 000002d6 f6f3 AL tens, AH units
        add ax,0x3030                   ; 000002d8 66053030
        mov [edi],al                    ; 000002dc 8807
        mov [edi+2],ah                  ; 000002de 886702
        inc ebp                         ; 000002e1 45
        mov eax,ebp                     ; 000002e2 89e8
        imul eax,eax,10                 ; 000002e4 6bc00a
.wait:
        cmp [TICKS],eax                 ; 000002e7 390500000100
        jb .wait                        ; 000002ed 72f8
        cmp ebp,25                      ; 000002ef 83fd19
        jb .line                        ; 000002f2 72c0
; ticks, interrupts of the disk, the sum, and the counts of A and V, in rows 0 to 4
.numbers:
        mov edi,SCREEN+40               ; 000002f4 bf28800b00
        mov eax,[TICKS]                 ; 000002f9 a100000100
        call print                      ; 000002fe e82a000000
        mov eax,[DISK_TICKS]            ; 00000303 a104000100
        call print                      ; 00000308 e820000000
        mov eax,[SUM]                   ; 0000030d a100100100
        call print                      ; 00000312 e816000000
        mov eax,[COUNT_A]               ; 00000317 a104100100
        call print                      ; 0000031c e80c000000
        mov eax,[COUNT_V]               ; 00000321 a100800100
        call print                      ; 00000326 e802000000
        jmp .numbers                    ; 0000032b ebc7

; EAX in eight digits at EDI, which then is in the row below
print:
        mov ecx,8                       ; 0000032d b908000000
.digit:
        rol eax,4                       ; 00000332 c1c004
        mov ebx,eax                     ; 00000335 89c3
        and ebx,0x0f                    ; 00000337 83e30f
        mov bl,[cs:ROM+digits+ebx]      ; 0000033a 2e8a9b55030e00
        mov [edi],bl                    ; 00000341 881f
        add edi,2                       ; 00000343 83c702
        loop .digit                     ; 00000346 e2ea
        add edi,160-16                  ; 00000348 81c790000000
        ret                             ; 0000034e c3

word_line:
        db "LINE ",0                    ; 0000034f 4c494e452000
digits:
        db "0123456789abcdef"           ; 00000355 30313233343536373839616263646566

gdtr:
        dw 0x17                         ; 00000365 1700
        dd ROM+gdt                      ; 00000367 77030e00
ramgdtr:
        dw 0x47                         ; 0000036b 4700
        dd GDT                          ; 0000036d 00100000
idtr:
        dw 0x177                        ; 00000371 7701
        dd IDT                          ; 00000373 00080000
gdt:
        dd 0x00000000, 0x00000000       ; 00000377 0000000000000000
        dd 0x0000ffff, 0x00cf9b00       ; 0000037f ffff0000009bcf00
        dd 0x0000ffff, 0x00cf9300       ; 00000387 ffff00000093cf00
        dd 0x0000ffff, 0x00cffb00       ; 0000038f ffff000000fbcf00
        dd 0x0000ffff, 0x00cff300       ; 00000397 ffff000000f3cf00
        dd 0x50000067, 0x00008900       ; 0000039f 6700005000890000
        dd 0x510000a7, 0x00008900       ; 000003a7 a700005100890000
        dd 0x52000067, 0x00008900       ; 000003af 6700005200890000
        dd 0x53000067, 0x00008900       ; 000003b7 6700005300890000

        times 0x10000-($-$$) db 0xf4
        bits 16
; V: it counts in segment 1800h, and in between has its interrupts off
task_v:
        cli                             ; 00010000 fa
        inc dword [0x0000]              ; 00010001 66ff060000
        sti                             ; 00010006 fb
        inc dword [0x0000]              ; 00010007 66ff060000
        jmp task_v                      ; 0001000c ebf2

        times 0x1fff0-($-$$) db 0xf4
        jmp 0xe000:start                ; 0001fff0 ea000000e0
