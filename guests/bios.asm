; A small BIOS. It sets up the interrupt controllers, the timer, the vectors and its variables at 0040:0000,
; finds the disk, and starts what its first sector has. The ROM is the 64 KiB below 1 MiB: CS is F000, and a
; place in the ROM and an offset in CS are the same. Functions that a boot loader may want and that are not here
; (INT 13h 43h and 48h, INT 15h E820h) have their place at the end of each interrupt's list.
; rom 65536 bytes of f4
; run --steps 100000
        bits 16
        cpu 386
        org 0

; its variables, in segment 40h, at the places that a PC's BIOS has them
EQUIPMENT       equ 0x10        ; INT 11h
MEMORY          equ 0x13        ; KiB below A0000h
SHIFTS          equ 0x17        ; bits 0 and 1 the shift keys, 2 control, 3 alt, 6 caps lock
KEYS_HEAD       equ 0x1a        ; the queue of keys: the oldest, and the place behind the youngest
KEYS_TAIL       equ 0x1c
KEYS            equ 0x1e        ; 16 words, of which 15 are used
KEYS_END        equ 0x3e
DISK_STATUS     equ 0x74        ; AH of the last call of INT 13h
VIDEO_MODE      equ 0x49
COLUMNS         equ 0x4a
CURSOR          equ 0x50        ; column, and row behind it
CURSOR_SHAPE    equ 0x60
CRT_PORT        equ 0x63
TICKS           equ 0x6c        ; since midnight, a doubleword
MIDNIGHT        equ 0x70        ; 1 once the day is over
DISKS           equ 0x75
LAST_ROW        equ 0x84
DISK_SECTORS    equ 0xe0        ; a doubleword: how many the disk has
DISK_CYLINDERS  equ 0xe4
DISK_HEADS      equ 0xe6
DISK_TRACK      equ 0xe8        ; sectors of a track

DAY             equ 0x1800b0    ; ticks of a day
SCREEN          equ 0xb800
BOOT            equ 0x7c00      ; where the first sector goes

; ports
PIC             equ 0x20
PIC2            equ 0xa0
TIMER           equ 0x40
TIMER_CONTROL   equ 0x43
KEYBOARD        equ 0x60
KEYBOARD_CONTROL equ 0x64
CRT             equ 0x3d4
DISK            equ 0x1f0
DISK_CONTROL    equ 0x3f6

        times 0xe000 db 0xf4

; ---- power on

start:
        cli                             ; 0000e000 fa
        cld                             ; 0000e001 fc
        xor ax,ax                       ; 0000e002 31c0
        mov ss,ax                       ; 0000e004 8ed0
        mov sp,BOOT                     ; 0000e006 bc007c
        mov es,ax                       ; 0000e009 8ec0
        mov ds,ax                       ; 0000e00b 8ed8
; all of the vectors to a handler that does nothing, and then those that there are
        xor di,di                       ; 0000e00d 31ff
        mov cx,256                      ; 0000e00f b90001
.vector:
        mov ax,nothing                  ; 0000e012 b8e0e0
        stosw                           ; 0000e015 ab
        mov ax,cs                       ; 0000e016 8cc8
        stosw                           ; 0000e018 ab
        loop .vector                    ; 0000e019 e2f7
        mov si,vectors                  ; 0000e01b be0fe7
.next:
        cs lodsw                        ; 0000e01e 2ead
        cmp ax,0xffff                   ; 0000e020 83f8ff
        jz variables                    ; 0000e023 7407
        mov di,ax                       ; 0000e025 89c7
        cs lodsw                        ; 0000e027 2ead
        stosw                           ; 0000e029 ab
        jmp .next                       ; 0000e02a ebf2

; the variables
variables:
        mov ax,0x40                     ; 0000e02c b84000
        mov es,ax                       ; 0000e02f 8ec0
        mov ds,ax                       ; 0000e031 8ed8
        xor di,di                       ; 0000e033 31ff
        mov cx,0x80                     ; 0000e035 b98000
        xor ax,ax                       ; 0000e038 31c0
        rep stosw                       ; 0000e03a f3ab
        mov word [EQUIPMENT],0x0020     ; 0000e03c c70610002000 a screen of 80 columns, no floppy disk
        mov word [MEMORY],640           ; 0000e042 c70613008002
        mov word [KEYS_HEAD],KEYS       ; 0000e048 c7061a001e00
        mov word [KEYS_TAIL],KEYS       ; 0000e04e c7061c001e00
        mov byte [VIDEO_MODE],3         ; 0000e054 c606490003
        mov word [COLUMNS],80           ; 0000e059 c7064a005000
        mov word [CRT_PORT],CRT         ; 0000e05f c7066300d403
        mov word [CURSOR_SHAPE],0x0607  ; 0000e065 c70660000706
        mov byte [LAST_ROW],24          ; 0000e06b c606840018
; both interrupt controllers: lines 0 to 7 are vectors 8 to F, lines 8 to 15 are 70 to 77. The timer, the keyboard and the
; second controller may interrupt; of its lines the disk.
        mov al,0x11                     ; 0000e070 b011
        out PIC,al                      ; 0000e072 e620
        mov al,0x08                     ; 0000e074 b008
        out PIC+1,al                    ; 0000e076 e621
        mov al,0x04                     ; 0000e078 b004
        out PIC+1,al                    ; 0000e07a e621
        mov al,0x01                     ; 0000e07c b001
        out PIC+1,al                    ; 0000e07e e621
        mov al,0x11                     ; 0000e080 b011
        out PIC2,al                     ; 0000e082 e6a0
        mov al,0x70                     ; 0000e084 b070
        out PIC2+1,al                   ; 0000e086 e6a1
        mov al,0x02                     ; 0000e088 b002
        out PIC2+1,al                   ; 0000e08a e6a1
        mov al,0x01                     ; 0000e08c b001
        out PIC2+1,al                   ; 0000e08e e6a1
        mov al,0xf8                     ; 0000e090 b0f8
        out PIC+1,al                    ; 0000e092 e621
        mov al,0xbf                     ; 0000e094 b0bf
        out PIC2+1,al                   ; 0000e096 e6a1
; counter 0 counts from 65,536 again and again: 18.2 ticks a second of a clock of 1.193182 MHz
        mov al,0x36                     ; 0000e098 b036
        out TIMER_CONTROL,al            ; 0000e09a e643
        xor al,al                       ; 0000e09c 30c0
        out TIMER,al                    ; 0000e09e e640
        out TIMER,al                    ; 0000e0a0 e640
; the keyboard: its interrupt, and bytes as they come
        mov al,0x60                     ; 0000e0a2 b060
        out KEYBOARD_CONTROL,al         ; 0000e0a4 e664
        call keyboard_takes             ; 0000e0a6 e82000
        mov al,0x45                     ; 0000e0a9 b045
        out KEYBOARD,al                 ; 0000e0ab e660
        call keyboard_takes             ; 0000e0ad e81900
.waiting:
        in al,KEYBOARD_CONTROL          ; 0000e0b0 e464
        test al,1                       ; 0000e0b2 a801
        jz .empty                       ; 0000e0b4 7404
        in al,KEYBOARD                  ; 0000e0b6 e460
        jmp .waiting                    ; 0000e0b8 ebf6
.empty:
        call clear_screen               ; 0000e0ba e8d901
        call find_disk                  ; 0000e0bd e8a902
        sti                             ; 0000e0c0 fb
        mov si,banner                   ; 0000e0c1 beede7
        call print                      ; 0000e0c4 e80900
        int 0x19                        ; 0000e0c7 cd19

; until the keyboard's controller takes a byte
keyboard_takes:
        in al,KEYBOARD_CONTROL          ; 0000e0c9 e464
        test al,2                       ; 0000e0cb a802
        jnz keyboard_takes              ; 0000e0cd 75fa
        ret                             ; 0000e0cf c3

; the text at CS:SI, up to a zero, on the screen
print:
        cs lodsb                        ; 0000e0d0 2eac
        cmp al,0                        ; 0000e0d2 3c00
        jz .end                         ; 0000e0d4 7409
        mov ah,0x0e                     ; 0000e0d6 b40e
        mov bx,0x0007                   ; 0000e0d8 bb0700
        int 0x10                        ; 0000e0db cd10
        jmp print                       ; 0000e0dd ebf1
.end:
        ret                             ; 0000e0df c3

; ---- interrupts of the chips

nothing:
        iret                            ; 0000e0e0 cf

; INT 8: the timer
timer:
        push ax                         ; 0000e0e1 50
        push ds                         ; 0000e0e2 1e
        mov ax,0x40                     ; 0000e0e3 b84000
        mov ds,ax                       ; 0000e0e6 8ed8
        inc dword [TICKS]               ; 0000e0e8 66ff066c00
        cmp dword [TICKS],DAY           ; 0000e0ed 66813e6c00b0001800
        jb .user                        ; 0000e0f6 720e
        mov dword [TICKS],0             ; 0000e0f8 66c7066c0000000000
        mov byte [MIDNIGHT],1           ; 0000e101 c606700001
.user:
        int 0x1c                        ; 0000e106 cd1c
        mov al,0x20                     ; 0000e108 b020
        out PIC,al                      ; 0000e10a e620
        pop ds                          ; 0000e10c 1f
        pop ax                          ; 0000e10d 58
        iret                            ; 0000e10e cf

; INT 76h: the disk
disk_line:
        push ax                         ; 0000e10f 50
        push dx                         ; 0000e110 52
        mov dx,DISK+7                   ; 0000e111 baf701
        in al,dx                        ; 0000e114 ec
        mov al,0x20                     ; 0000e115 b020
        out PIC2,al                     ; 0000e117 e6a0
        out PIC,al                      ; 0000e119 e620
        pop dx                          ; 0000e11b 5a
        pop ax                          ; 0000e11c 58
        iret                            ; 0000e11d cf

; INT 9: the keyboard. The bytes are scan codes of set 1.
keyboard:
        pusha                           ; 0000e11e 60
        push ds                         ; 0000e11f 1e
        mov ax,0x40                     ; 0000e120 b84000
        mov ds,ax                       ; 0000e123 8ed8
        in al,KEYBOARD_CONTROL          ; 0000e125 e464
        test al,1                       ; 0000e127 a801
        jz .end                         ; 0000e129 7448
        in al,KEYBOARD                  ; 0000e12b e460
        mov ah,al                       ; 0000e12d 88c4
        and ah,0x7f                     ; 0000e12f 80e47f the key; bit 7 of AL says that it is released
        mov si,shift_keys               ; 0000e132 be3de7
        mov cx,4                        ; 0000e135 b90400
.shift:
        cmp ah,[cs:si]                  ; 0000e138 2e3a24
        jz .is_shift                    ; 0000e13b 741b
        add si,2                        ; 0000e13d 83c602
        loop .shift                     ; 0000e140 e2f6
        test al,0x80                    ; 0000e142 a880
        jnz .end                        ; 0000e144 752d
        cmp ah,0x3a                     ; 0000e146 80fc3a
        jz .caps                        ; 0000e149 7423
        cmp ah,0x54                     ; 0000e14b 80fc54
        jnb .end                        ; 0000e14e 7323
        call character                  ; 0000e150 e82700
        call put_key                    ; 0000e153 e85b00
        jmp .end                        ; 0000e156 eb1b
.is_shift:
        mov bl,[cs:si+1]                ; 0000e158 2e8a5c01
        test al,0x80                    ; 0000e15c a880
        jnz .released                   ; 0000e15e 7506
        or [SHIFTS],bl                  ; 0000e160 081e1700
        jmp .end                        ; 0000e164 eb0d
.released:
        not bl                          ; 0000e166 f6d3
        and [SHIFTS],bl                 ; 0000e168 201e1700
        jmp .end                        ; 0000e16c eb05
.caps:
        xor byte [SHIFTS],0x40          ; 0000e16e 8036170040
.end:
        mov al,0x20                     ; 0000e173 b020
        out PIC,al                      ; 0000e175 e620
        pop ds                          ; 0000e177 1f
        popa                            ; 0000e178 61
        iret                            ; 0000e179 cf

; the character of the key AH, in AL
character:
        mov bl,ah                       ; 0000e17a 88e3
        xor bh,bh                       ; 0000e17c 30ff
        mov al,[cs:bx+plain_keys]       ; 0000e17e 2e8a8745e7
        test byte [SHIFTS],0x03         ; 0000e183 f606170003
        jz .case                        ; 0000e188 7405
        mov al,[cs:bx+shifted_keys]     ; 0000e18a 2e8a8799e7
.case:
        test byte [SHIFTS],0x40         ; 0000e18f f606170040
        jz .control                     ; 0000e194 7411
        mov dl,al                       ; 0000e196 88c2 caps lock turns the case of letters
        or dl,0x20                      ; 0000e198 80ca20
        cmp dl,'a'                      ; 0000e19b 80fa61
        jb .control                     ; 0000e19e 7207
        cmp dl,'z'                      ; 0000e1a0 80fa7a
        ja .control                     ; 0000e1a3 7702
        xor al,0x20                     ; 0000e1a5 3420
.control:
        test byte [SHIFTS],0x04         ; 0000e1a7 f606170004
        jz .end                         ; 0000e1ac 7402
        and al,0x1f                     ; 0000e1ae 241f
.end:
        ret                             ; 0000e1b0 c3

; the key AX into the queue, where it has room
put_key:
        mov bx,[KEYS_TAIL]              ; 0000e1b1 8b1e1c00
        mov dx,bx                       ; 0000e1b5 89da
        call next_place                 ; 0000e1b7 e80f00
        cmp bx,[KEYS_HEAD]              ; 0000e1ba 3b1e1a00
        jz .full                        ; 0000e1be 7408
        mov si,dx                       ; 0000e1c0 89d6
        mov [si],ax                     ; 0000e1c2 8904
        mov [KEYS_TAIL],bx              ; 0000e1c4 891e1c00
.full:
        ret                             ; 0000e1c8 c3

; the place of the queue behind BX
next_place:
        add bx,2                        ; 0000e1c9 83c302
        cmp bx,KEYS_END                 ; 0000e1cc 83fb3e
        jb .end                         ; 0000e1cf 7203
        mov bx,KEYS                     ; 0000e1d1 bb1e00
.end:
        ret                             ; 0000e1d4 c3

; ---- INT 10h: the screen

video:
        cld                             ; 0000e1d5 fc
        push ds                         ; 0000e1d6 1e
        push es                         ; 0000e1d7 06
        push bp                         ; 0000e1d8 55
        push si                         ; 0000e1d9 56
        push di                         ; 0000e1da 57
        push dx                         ; 0000e1db 52
        push cx                         ; 0000e1dc 51
        push bx                         ; 0000e1dd 53
        mov si,0x40                     ; 0000e1de be4000
        mov ds,si                       ; 0000e1e1 8ede
        mov si,SCREEN                   ; 0000e1e3 be00b8
        mov es,si                       ; 0000e1e6 8ec6
        cmp ah,0x00                     ; 0000e1e8 80fc00
        jz .mode                        ; 0000e1eb 742c
        cmp ah,0x02                     ; 0000e1ed 80fc02
        jz .set_cursor                  ; 0000e1f0 742c
        cmp ah,0x03                     ; 0000e1f2 80fc03
        jz .cursor                      ; 0000e1f5 7430
        cmp ah,0x06                     ; 0000e1f7 80fc06
        jz .scroll                      ; 0000e1fa 7438
        cmp ah,0x08                     ; 0000e1fc 80fc08
        jz .read                        ; 0000e1ff 7438
        cmp ah,0x09                     ; 0000e201 80fc09
        jz .write                       ; 0000e204 743b
        cmp ah,0x0e                     ; 0000e206 80fc0e
        jz .teletype                    ; 0000e209 7441
        cmp ah,0x0f                     ; 0000e20b 80fc0f
        jz .state                       ; 0000e20e 7443
.end:
        pop bx                          ; 0000e210 5b
        pop cx                          ; 0000e211 59
        pop dx                          ; 0000e212 5a
.keep:
        pop di                          ; 0000e213 5f
        pop si                          ; 0000e214 5e
        pop bp                          ; 0000e215 5d
        pop es                          ; 0000e216 07
        pop ds                          ; 0000e217 1f
        iret                            ; 0000e218 cf
.mode:
        call clear_screen               ; 0000e219 e87a00
        jmp .end                        ; 0000e21c ebf2
.set_cursor:
        mov [CURSOR],dx                 ; 0000e21e 89165000
        call show_cursor                ; 0000e222 e85100
        jmp .end                        ; 0000e225 ebe9
; DH and DL are the row and the column, and CX the shape
.cursor:
        pop bx                          ; 0000e227 5b
        pop cx                          ; 0000e228 59
        pop dx                          ; 0000e229 5a
        mov dx,[CURSOR]                 ; 0000e22a 8b165000
        mov cx,[CURSOR_SHAPE]           ; 0000e22e 8b0e6000
        jmp .keep                       ; 0000e232 ebdf
; the whole screen up by AL lines, whose cells get the attribute BH
.scroll:
        call scroll_up                  ; 0000e234 e88700
        jmp .end                        ; 0000e237 ebd7
.read:
        call cell                       ; 0000e239 e82500
        mov ax,[es:di]                  ; 0000e23c 268b05
        jmp .end                        ; 0000e23f ebcf
; AL with the attribute BL, CX times
.write:
        call cell                       ; 0000e241 e81d00
        mov ah,bl                       ; 0000e244 88dc
        rep stosw                       ; 0000e246 f3ab
        mov ah,0x09                     ; 0000e248 b409
        jmp .end                        ; 0000e24a ebc4
.teletype:
        push ax                         ; 0000e24c 50
        call put_character              ; 0000e24d e89a00
        pop ax                          ; 0000e250 58
        jmp .end                        ; 0000e251 ebbd
; AL is the mode, AH the columns, and BH the page
.state:
        mov al,[VIDEO_MODE]             ; 0000e253 a04900
        mov ah,[COLUMNS]                ; 0000e256 8a264a00
        pop bx                          ; 0000e25a 5b
        xor bh,bh                       ; 0000e25b 30ff
        pop cx                          ; 0000e25d 59
        pop dx                          ; 0000e25e 5a
        jmp .keep                       ; 0000e25f ebb2

; the place in the screen's memory of the cell at the cursor, in DI
cell:
        push ax                         ; 0000e261 50
        mov al,[CURSOR+1]               ; 0000e262 a05100
        mov ah,80                       ; 0000e265 b450
        mul ah                          ; 0000e267 f6e4
        mov di,ax                       ; 0000e269 89c7
        xor ah,ah                       ; 0000e26b 30e4
        mov al,[CURSOR]                 ; 0000e26d a05000
        add di,ax                       ; 0000e270 01c7
        add di,di                       ; 0000e272 01ff
        pop ax                          ; 0000e274 58
        ret                             ; 0000e275 c3

; the cursor's cell into registers 0Eh and 0Fh
show_cursor:
        push ax                         ; 0000e276 50
        push dx                         ; 0000e277 52
        push di                         ; 0000e278 57
        call cell                       ; 0000e279 e8e5ff
        shr di,1                        ; 0000e27c d1ef
        mov dx,CRT                      ; 0000e27e bad403
        mov al,0x0e                     ; 0000e281 b00e
        out dx,al                       ; 0000e283 ee
        inc dx                          ; 0000e284 42
        mov ax,di                       ; 0000e285 89f8
        mov al,ah                       ; 0000e287 88e0
        out dx,al                       ; 0000e289 ee
        dec dx                          ; 0000e28a 4a
        mov al,0x0f                     ; 0000e28b b00f
        out dx,al                       ; 0000e28d ee
        inc dx                          ; 0000e28e 42
        mov ax,di                       ; 0000e28f 89f8
        out dx,al                       ; 0000e291 ee
        pop di                          ; 0000e292 5f
        pop dx                          ; 0000e293 5a
        pop ax                          ; 0000e294 58
        ret                             ; 0000e295 c3

; spaces everywhere, and the cursor at the top left
clear_screen:
        push ax                         ; 0000e296 50
        push cx                         ; 0000e297 51
        push di                         ; 0000e298 57
        push es                         ; 0000e299 06
        push ds                         ; 0000e29a 1e
        mov ax,0x40                     ; 0000e29b b84000
        mov ds,ax                       ; 0000e29e 8ed8
        mov ax,SCREEN                   ; 0000e2a0 b800b8
        mov es,ax                       ; 0000e2a3 8ec0
        xor di,di                       ; 0000e2a5 31ff
        mov ax,0x0720                   ; 0000e2a7 b82007
        mov cx,2000                     ; 0000e2aa b9d007
        rep stosw                       ; 0000e2ad f3ab
        mov word [CURSOR],0             ; 0000e2af c70650000000
        call show_cursor                ; 0000e2b5 e8beff
        pop ds                          ; 0000e2b8 1f
        pop es                          ; 0000e2b9 07
        pop di                          ; 0000e2ba 5f
        pop cx                          ; 0000e2bb 59
        pop ax                          ; 0000e2bc 58
        ret                             ; 0000e2bd c3

; the screen up by AL lines (0: all of them), and spaces of the attribute BH below
scroll_up:
        push ds                         ; 0000e2be 1e
        cmp al,0                        ; 0000e2bf 3c00
        jz .all                         ; 0000e2c1 7404
        cmp al,25                       ; 0000e2c3 3c19
        jb .some                        ; 0000e2c5 7202
.all:
        mov al,25                       ; 0000e2c7 b019
.some:
        mov ah,80                       ; 0000e2c9 b450
        mul ah                          ; 0000e2cb f6e4 cells that leave the screen
        mov dx,ax                       ; 0000e2cd 89c2
        mov cx,2000                     ; 0000e2cf b9d007
        sub cx,ax                       ; 0000e2d2 29c1 cells that stay
        mov si,ax                       ; 0000e2d4 89c6
        add si,si                       ; 0000e2d6 01f6
        xor di,di                       ; 0000e2d8 31ff
        mov ax,es                       ; 0000e2da 8cc0
        mov ds,ax                       ; 0000e2dc 8ed8
        rep movsw                       ; 0000e2de f3a5
        mov cx,dx                       ; 0000e2e0 89d1
        mov ah,bh                       ; 0000e2e2 88fc
        mov al,0x20                     ; 0000e2e4 b020
        rep stosw                       ; 0000e2e6 f3ab
        pop ds                          ; 0000e2e8 1f
        ret                             ; 0000e2e9 c3

; AL as a terminal shows it: 7 does nothing, 8 goes back, 0Ah goes down, 0Dh to the start of the line
put_character:
        mov dx,[CURSOR]                 ; 0000e2ea 8b165000
        cmp al,0x07                     ; 0000e2ee 3c07
        jz .done                        ; 0000e2f0 7441
        cmp al,0x08                     ; 0000e2f2 3c08
        jz .back                        ; 0000e2f4 742b
        cmp al,0x0a                     ; 0000e2f6 3c0a
        jz .down                        ; 0000e2f8 7413
        cmp al,0x0d                     ; 0000e2fa 3c0d
        jz .start                       ; 0000e2fc 742c
        call cell                       ; 0000e2fe e860ff
        mov ah,0x07                     ; 0000e301 b407
        stosw                           ; 0000e303 ab
        inc dl                          ; 0000e304 fec2
        cmp dl,80                       ; 0000e306 80fa50
        jb .place                       ; 0000e309 7221
        xor dl,dl                       ; 0000e30b 30d2
.down:
        inc dh                          ; 0000e30d fec6
        cmp dh,25                       ; 0000e30f 80fe19
        jb .place                       ; 0000e312 7218
        dec dh                          ; 0000e314 fece
        push dx                         ; 0000e316 52
        mov bh,0x07                     ; 0000e317 b707
        mov al,1                        ; 0000e319 b001
        call scroll_up                  ; 0000e31b e8a0ff
        pop dx                          ; 0000e31e 5a
        jmp .place                      ; 0000e31f eb0b
.back:
        cmp dl,0                        ; 0000e321 80fa00
        jz .place                       ; 0000e324 7406
        dec dl                          ; 0000e326 feca
        jmp .place                      ; 0000e328 eb02
.start:
        xor dl,dl                       ; 0000e32a 30d2
.place:
        mov [CURSOR],dx                 ; 0000e32c 89165000
        call show_cursor                ; 0000e330 e843ff
.done:
        ret                             ; 0000e333 c3

; ---- INT 11h, INT 12h and INT 1Ah: the equipment, memory, the time

equipment:
        push ds                         ; 0000e334 1e
        mov ax,0x40                     ; 0000e335 b84000
        mov ds,ax                       ; 0000e338 8ed8
        mov ax,[EQUIPMENT]              ; 0000e33a a11000
        pop ds                          ; 0000e33d 1f
        iret                            ; 0000e33e cf

memory:
        push ds                         ; 0000e33f 1e
        mov ax,0x40                     ; 0000e340 b84000
        mov ds,ax                       ; 0000e343 8ed8
        mov ax,[MEMORY]                 ; 0000e345 a11300
        pop ds                          ; 0000e348 1f
        iret                            ; 0000e349 cf

; AH 0: the ticks in CX and DX, and in AL whether a day ended
time:
        cmp ah,0                        ; 0000e34a 80fc00
        jnz .end                        ; 0000e34d 7519
        push ds                         ; 0000e34f 1e
        mov ax,0x40                     ; 0000e350 b84000
        mov ds,ax                       ; 0000e353 8ed8
        mov dx,[TICKS]                  ; 0000e355 8b166c00
        mov cx,[TICKS+2]                ; 0000e359 8b0e6e00
        mov al,[MIDNIGHT]               ; 0000e35d a07000
        mov byte [MIDNIGHT],0           ; 0000e360 c606700000
        mov ah,0                        ; 0000e365 b400
        pop ds                          ; 0000e367 1f
.end:
        iret                            ; 0000e368 cf

; ---- INT 13h: the disk

; how many sectors there are, in which geometry; interrupts of the disk are not wanted
find_disk:
        push ds                         ; 0000e369 1e
        mov ax,0x40                     ; 0000e36a b84000
        mov ds,ax                       ; 0000e36d 8ed8
        mov dx,DISK_CONTROL             ; 0000e36f baf603
        mov al,0x02                     ; 0000e372 b002
        out dx,al                       ; 0000e374 ee
        mov dx,DISK+6                   ; 0000e375 baf601
        mov al,0xe0                     ; 0000e378 b0e0
        out dx,al                       ; 0000e37a ee
        inc dx                          ; 0000e37b 42
        in al,dx                        ; 0000e37c ec
        cmp al,0                        ; 0000e37d 3c00
        jz .none                        ; 0000e37f 7440
        cmp al,0xff                     ; 0000e381 3cff
        jz .none                        ; 0000e383 743c
        mov al,0xec                     ; 0000e385 b0ec
        out dx,al                       ; 0000e387 ee
        call disk_offers                ; 0000e388 e83800
        jc .none                        ; 0000e38b 7234
        push es                         ; 0000e38d 06
        xor ax,ax                       ; 0000e38e 31c0
        mov es,ax                       ; 0000e390 8ec0
        mov di,BOOT                     ; 0000e392 bf007c
        mov cx,256                      ; 0000e395 b90001
        mov dx,DISK                     ; 0000e398 baf001
        rep insw                        ; 0000e39b f36d
        mov ax,[es:BOOT+2]              ; 0000e39d 26a1027c
        mov [DISK_CYLINDERS],ax         ; 0000e3a1 a3e400
        mov ax,[es:BOOT+6]              ; 0000e3a4 26a1067c
        mov [DISK_HEADS],ax             ; 0000e3a8 a3e600
        mov ax,[es:BOOT+12]             ; 0000e3ab 26a10c7c
        mov [DISK_TRACK],ax             ; 0000e3af a3e800
        mov eax,[es:BOOT+120]           ; 0000e3b2 2666a1787c
        mov [DISK_SECTORS],eax          ; 0000e3b7 66a3e000
        pop es                          ; 0000e3bb 07
        mov byte [DISKS],1              ; 0000e3bc c606750001
.none:
        pop ds                          ; 0000e3c1 1f
        ret                             ; 0000e3c2 c3

; until the disk offers a sector or wants one; CF is 1 where it tells an error
disk_offers:
        push ax                         ; 0000e3c3 50
        push dx                         ; 0000e3c4 52
        mov dx,DISK+7                   ; 0000e3c5 baf701
.busy:
        in al,dx                        ; 0000e3c8 ec
        test al,0x80                    ; 0000e3c9 a880
        jnz .busy                       ; 0000e3cb 75fb
        test al,0x01                    ; 0000e3cd a801
        jnz .error                      ; 0000e3cf 7508
        test al,0x08                    ; 0000e3d1 a808
        jz .busy                        ; 0000e3d3 74f3
        pop dx                          ; 0000e3d5 5a
        pop ax                          ; 0000e3d6 58
        clc                             ; 0000e3d7 f8
        ret                             ; 0000e3d8 c3
.error:
        pop dx                          ; 0000e3d9 5a
        pop ax                          ; 0000e3da 58
        stc                             ; 0000e3db f9
        ret                             ; 0000e3dc c3

; AH is the function. CF, in the flags that IRET takes, is 1 where AH behind the call is not 0.
disk:
        cld                             ; 0000e3dd fc
        push bp                         ; 0000e3de 55
        mov bp,sp                       ; 0000e3df 89e5
        push ds                         ; 0000e3e1 1e
        push ax                         ; 0000e3e2 50
        mov ax,0x40                     ; 0000e3e3 b84000
        mov ds,ax                       ; 0000e3e6 8ed8
        pop ax                          ; 0000e3e8 58
        cmp ah,0x00                     ; 0000e3e9 80fc00
        jz .good                        ; 0000e3ec 747f
        cmp ah,0x01                     ; 0000e3ee 80fc01
        jz .status                      ; 0000e3f1 7429
        cmp dl,0x80                     ; 0000e3f3 80fa80
        jnz .wrong                      ; 0000e3f6 7520
        cmp byte [DISKS],0              ; 0000e3f8 803e750000
        jz .wrong                       ; 0000e3fd 7419
        cmp ah,0x02                     ; 0000e3ff 80fc02
        jz .read                        ; 0000e402 741e
        cmp ah,0x03                     ; 0000e404 80fc03
        jz .write                       ; 0000e407 741e
        cmp ah,0x08                     ; 0000e409 80fc08
        jz .geometry                    ; 0000e40c 741e
        cmp ah,0x41                     ; 0000e40e 80fc41
        jz .extensions                  ; 0000e411 743c
        cmp ah,0x42                     ; 0000e413 80fc42
        jz .read_packet                 ; 0000e416 7450
.wrong:
        mov ah,0x01                     ; 0000e418 b401
        jmp .end                        ; 0000e41a eb53
.status:
        mov ah,[DISK_STATUS]            ; 0000e41c 8a267400
        jmp .end                        ; 0000e420 eb4d
.read:
        call track_sectors              ; 0000e422 e8ab00
        jmp .end                        ; 0000e425 eb48
.write:
        call write_track                ; 0000e427 e80e01
        jmp .end                        ; 0000e42a eb43
; CH and CL are the last cylinder and sector, DH the last head, DL how many disks
.geometry:
        mov ax,[DISK_CYLINDERS]         ; 0000e42c a1e400
        cmp ax,1024                     ; 0000e42f 3d0004
        jna .few                        ; 0000e432 7603
        mov ax,1024                     ; 0000e434 b80004
.few:
        dec ax                          ; 0000e437 48
        mov ch,al                       ; 0000e438 88c5
        mov cl,ah                       ; 0000e43a 88e1
        shl cl,6                        ; 0000e43c c0e106
        or cl,[DISK_TRACK]              ; 0000e43f 0a0ee800
        mov dh,[DISK_HEADS]             ; 0000e443 8a36e600
        dec dh                          ; 0000e447 fece
        mov dl,1                        ; 0000e449 b201
        mov al,0                        ; 0000e44b b000
        jmp .good                       ; 0000e44d eb1e
; the packet calls: version 1, packets alone
.extensions:
        cmp bx,0x55aa                   ; 0000e44f 81fbaa55
        jnz .wrong                      ; 0000e453 75c3
        mov bx,0xaa55                   ; 0000e455 bb55aa
        mov cx,1                        ; 0000e458 b90100
        mov ax,0x0100                   ; 0000e45b b80001
        mov [DISK_STATUS],al            ; 0000e45e a27400
        and word [bp+6],0xfffe          ; 0000e461 836606fe
        pop ds                          ; 0000e465 1f
        pop bp                          ; 0000e466 5d
        iret                            ; 0000e467 cf
.read_packet:
        call packet_sectors             ; 0000e468 e86001
        jmp .end                        ; 0000e46b eb02
.good:
        mov ah,0                        ; 0000e46d b400
.end:
        mov [DISK_STATUS],ah            ; 0000e46f 88267400
        and word [bp+6],0xfffe          ; 0000e473 836606fe
        cmp ah,0                        ; 0000e477 80fc00
        jz .back                        ; 0000e47a 7404
        or word [bp+6],1                ; 0000e47c 834e0601
.back:
        pop ds                          ; 0000e480 1f
        pop bp                          ; 0000e481 5d
        iret                            ; 0000e482 cf

; the sector number in EAX of cylinder CH and bits 6 and 7 of CL, head DH, sector CL; CF where there is none such
track_place:
        push ebx                        ; 0000e483 6653
        push edx                        ; 0000e485 6652
        push cx                         ; 0000e487 51
        movzx ebx,cl                    ; 0000e488 660fb6d9
        and bl,0x3f                     ; 0000e48c 80e33f
        jz .none                        ; 0000e48f 7438
        cmp bx,[DISK_TRACK]             ; 0000e491 3b1ee800
        ja .none                        ; 0000e495 7732
        movzx eax,dh                    ; 0000e497 660fb6c6
        cmp ax,[DISK_HEADS]             ; 0000e49b 3b06e600
        jnb .none                       ; 0000e49f 7328
        shr cl,6                        ; 0000e4a1 c0e906
        xchg cl,ch                      ; 0000e4a4 86cd the cylinder
        movzx ecx,cx                    ; 0000e4a6 660fb7c9
        movzx edx,word [DISK_HEADS]     ; 0000e4aa 660fb716e600
        imul ecx,edx                    ; 0000e4b0 660fafca
        add eax,ecx                     ; 0000e4b4 6601c8
        movzx edx,word [DISK_TRACK]     ; 0000e4b7 660fb716e800
        imul eax,edx                    ; 0000e4bd 660fafc2
        add eax,ebx                     ; 0000e4c1 6601d8
        dec eax                         ; 0000e4c4 6648
        clc                             ; 0000e4c6 f8
        jmp .end                        ; 0000e4c7 eb01
.none:
        stc                             ; 0000e4c9 f9
.end:
        pop cx                          ; 0000e4ca 59
        pop edx                         ; 0000e4cb 665a
        pop ebx                         ; 0000e4cd 665b
        ret                             ; 0000e4cf c3

; AL sectors from the place of CX and DH on to ES:BX
track_sectors:
        push ecx                        ; 0000e4d0 6651
        push edi                        ; 0000e4d2 6657
        movzx edi,al                    ; 0000e4d4 660fb6f8
        push eax                        ; 0000e4d8 6650
        call track_place                ; 0000e4da e8a6ff
        mov ecx,eax                     ; 0000e4dd 6689c1
        pop eax                         ; 0000e4e0 6658
        jc .bad                         ; 0000e4e2 7210
        push edi                        ; 0000e4e4 6657
        mov di,bx                       ; 0000e4e6 89df
        mov ah,al                       ; 0000e4e8 88c4
        call read_sectors               ; 0000e4ea e80e00
        pop edi                         ; 0000e4ed 665f
        pop edi                         ; 0000e4ef 665f
        pop ecx                         ; 0000e4f1 6659
        ret                             ; 0000e4f3 c3
.bad:
        mov ah,0x01                     ; 0000e4f4 b401
        pop edi                         ; 0000e4f6 665f
        pop ecx                         ; 0000e4f8 6659
        ret                             ; 0000e4fa c3

; AH sectors from sector ECX on to ES:DI; AH is then the error, and AL how many were read
read_sectors:
        push ecx                        ; 0000e4fb 6651
        push dx                         ; 0000e4fd 52
        mov al,0                        ; 0000e4fe b000
.next:
        cmp al,ah                       ; 0000e500 38e0
        jz .done                        ; 0000e502 7422
        call choose_sector              ; 0000e504 e89200
        jc .missing                     ; 0000e507 7223
        push ax                         ; 0000e509 50
        mov dx,DISK+7                   ; 0000e50a baf701
        mov al,0x20                     ; 0000e50d b020
        out dx,al                       ; 0000e50f ee
        call disk_offers                ; 0000e510 e8b0fe
        pop ax                          ; 0000e513 58
        jc .failed                      ; 0000e514 721c
        push cx                         ; 0000e516 51
        mov cx,256                      ; 0000e517 b90001
        mov dx,DISK                     ; 0000e51a baf001
        rep insw                        ; 0000e51d f36d
        pop cx                          ; 0000e51f 59
        inc ecx                         ; 0000e520 6641
        inc al                          ; 0000e522 fec0
        jmp .next                       ; 0000e524 ebda
.done:
        mov ah,0                        ; 0000e526 b400
        pop dx                          ; 0000e528 5a
        pop ecx                         ; 0000e529 6659
        ret                             ; 0000e52b c3
.missing:
        mov ah,0x04                     ; 0000e52c b404
        pop dx                          ; 0000e52e 5a
        pop ecx                         ; 0000e52f 6659
        ret                             ; 0000e531 c3
.failed:
        mov ah,0x20                     ; 0000e532 b420
        pop dx                          ; 0000e534 5a
        pop ecx                         ; 0000e535 6659
        ret                             ; 0000e537 c3

; AL sectors from ES:BX to the place of CX and DH
write_track:
        push ecx                        ; 0000e538 6651
        push esi                        ; 0000e53a 6656
        push eax                        ; 0000e53c 6650
        call track_place                ; 0000e53e e842ff
        mov ecx,eax                     ; 0000e541 6689c1
        pop eax                         ; 0000e544 6658
        jc .bad                         ; 0000e546 720c
        mov si,bx                       ; 0000e548 89de
        mov ah,al                       ; 0000e54a 88c4
        call write_sectors              ; 0000e54c e80c00
        pop esi                         ; 0000e54f 665e
        pop ecx                         ; 0000e551 6659
        ret                             ; 0000e553 c3
.bad:
        mov ah,0x01                     ; 0000e554 b401
        pop esi                         ; 0000e556 665e
        pop ecx                         ; 0000e558 6659
        ret                             ; 0000e55a c3

; AH sectors from ES:SI to sector ECX on; AH is then the error, and AL how many were written
write_sectors:
        push ecx                        ; 0000e55b 6651
        push dx                         ; 0000e55d 52
        mov al,0                        ; 0000e55e b000
.next:
        cmp al,ah                       ; 0000e560 38e0
        jz .done                        ; 0000e562 7423
        call choose_sector              ; 0000e564 e83200
        jc .missing                     ; 0000e567 7224
        push ax                         ; 0000e569 50
        mov dx,DISK+7                   ; 0000e56a baf701
        mov al,0x30                     ; 0000e56d b030
        out dx,al                       ; 0000e56f ee
        call disk_offers                ; 0000e570 e850fe
        pop ax                          ; 0000e573 58
        jc .failed                      ; 0000e574 721d
        push cx                         ; 0000e576 51
        mov cx,256                      ; 0000e577 b90001
        mov dx,DISK                     ; 0000e57a baf001
        es rep outsw                    ; 0000e57d f3266f
        pop cx                          ; 0000e580 59
        inc ecx                         ; 0000e581 6641
        inc al                          ; 0000e583 fec0
        jmp .next                       ; 0000e585 ebd9
.done:
        mov ah,0                        ; 0000e587 b400
        pop dx                          ; 0000e589 5a
        pop ecx                         ; 0000e58a 6659
        ret                             ; 0000e58c c3
.missing:
        mov ah,0x04                     ; 0000e58d b404
        pop dx                          ; 0000e58f 5a
        pop ecx                         ; 0000e590 6659
        ret                             ; 0000e592 c3
.failed:
        mov ah,0x20                     ; 0000e593 b420
        pop dx                          ; 0000e595 5a
        pop ecx                         ; 0000e596 6659
        ret                             ; 0000e598 c3

; one sector, ECX, by its number; CF where the disk has none such
choose_sector:
        cmp ecx,[DISK_SECTORS]          ; 0000e599 663b0ee000
        jnb .none                       ; 0000e59e 7329
        push eax                        ; 0000e5a0 6650
        push dx                         ; 0000e5a2 52
        mov dx,DISK+2                   ; 0000e5a3 baf201
        mov al,1                        ; 0000e5a6 b001
        out dx,al                       ; 0000e5a8 ee
        mov eax,ecx                     ; 0000e5a9 6689c8
        inc dx                          ; 0000e5ac 42
        out dx,al                       ; 0000e5ad ee
        shr eax,8                       ; 0000e5ae 66c1e808
        inc dx                          ; 0000e5b2 42
        out dx,al                       ; 0000e5b3 ee
        shr eax,8                       ; 0000e5b4 66c1e808
        inc dx                          ; 0000e5b8 42
        out dx,al                       ; 0000e5b9 ee
        shr eax,8                       ; 0000e5ba 66c1e808
        and al,0x0f                     ; 0000e5be 240f
        or al,0xe0                      ; 0000e5c0 0ce0
        inc dx                          ; 0000e5c2 42
        out dx,al                       ; 0000e5c3 ee
        pop dx                          ; 0000e5c4 5a
        pop eax                         ; 0000e5c5 6658
        clc                             ; 0000e5c7 f8
        ret                             ; 0000e5c8 c3
.none:
        stc                             ; 0000e5c9 f9
        ret                             ; 0000e5ca c3

; the packet at the caller's DS:SI: its length, how many sectors, where to, and the number of the first
packet_sectors:
        push es                         ; 0000e5cb 06
        push ecx                        ; 0000e5cc 6651
        push di                         ; 0000e5ce 57
        mov es,[bp-2]                   ; 0000e5cf 8e46fe
        mov ah,[es:si+2]                ; 0000e5d2 268a6402
        mov ecx,[es:si+8]               ; 0000e5d6 26668b4c08
        les di,[es:si+4]                ; 0000e5db 26c47c04
        call read_sectors               ; 0000e5df e819ff
        pop di                          ; 0000e5e2 5f
        pop ecx                         ; 0000e5e3 6659
        pop es                          ; 0000e5e5 07
        push ds                         ; 0000e5e6 1e
        mov ds,[bp-2]                   ; 0000e5e7 8e5efe
        mov byte [si+3],0               ; 0000e5ea c6440300
        mov [si+2],al                   ; 0000e5ee 884402
        pop ds                          ; 0000e5f1 1f
        ret                             ; 0000e5f2 c3

; ---- INT 15h: extended memory, and the line A20

system:
        push bp                         ; 0000e5f3 55
        mov bp,sp                       ; 0000e5f4 89e5
        and word [bp+6],0xfffe          ; 0000e5f6 836606fe
        cmp ah,0x88                     ; 0000e5fa 80fc88
        jz .memory                      ; 0000e5fd 740d
        cmp ah,0x24                     ; 0000e5ff 80fc24
        jz .a20                         ; 0000e602 740d
.none:
        mov ah,0x86                     ; 0000e604 b486
        or word [bp+6],1                ; 0000e606 834e0601
        jmp .end                        ; 0000e60a eb35
; the KiB above 1 MiB, as far as real mode can reach them: 63 where there is any
.memory:
        call reach_memory               ; 0000e60c e85900
        jmp .end                        ; 0000e60f eb30
.a20:
        cmp al,0                        ; 0000e611 3c00
        jz .off                         ; 0000e613 741a
        cmp al,1                        ; 0000e615 3c01
        jz .on                          ; 0000e617 740d
        cmp al,2                        ; 0000e619 3c02
        jz .state                       ; 0000e61b 741b
        cmp al,3                        ; 0000e61d 3c03
        jnz .none                       ; 0000e61f 75e3
        mov bx,1                        ; 0000e621 bb0100 by the keyboard's controller
        jmp .good                       ; 0000e624 eb19
.on:
        push ax                         ; 0000e626 50
        mov ah,0xdf                     ; 0000e627 b4df
        call set_a20                    ; 0000e629 e81700
        pop ax                          ; 0000e62c 58
        jmp .good                       ; 0000e62d eb10
.off:
        push ax                         ; 0000e62f 50
        mov ah,0xdd                     ; 0000e630 b4dd
        call set_a20                    ; 0000e632 e80e00
        pop ax                          ; 0000e635 58
        jmp .good                       ; 0000e636 eb07
.state:
        call output_port                ; 0000e638 e81d00
        shr al,1                        ; 0000e63b d0e8
        and al,1                        ; 0000e63d 2401
.good:
        mov ah,0                        ; 0000e63f b400
.end:
        pop bp                          ; 0000e641 5d
        iret                            ; 0000e642 cf

; the output port of the keyboard's controller: AH
set_a20:
        pushf                           ; 0000e643 9c
        cli                             ; 0000e644 fa
        call keyboard_takes             ; 0000e645 e881fa
        mov al,0xd1                     ; 0000e648 b0d1
        out KEYBOARD_CONTROL,al         ; 0000e64a e664
        call keyboard_takes             ; 0000e64c e87afa
        mov al,ah                       ; 0000e64f 88e0
        out KEYBOARD,al                 ; 0000e651 e660
        call keyboard_takes             ; 0000e653 e873fa
        popf                            ; 0000e656 9d
        ret                             ; 0000e657 c3

; the same, in AL. The keyboard is held back meanwhile: what it sends comes behind the answer.
output_port:
        pushf                           ; 0000e658 9c
        cli                             ; 0000e659 fa
        call keyboard_takes             ; 0000e65a e86cfa
        mov al,0xd0                     ; 0000e65d b0d0
        out KEYBOARD_CONTROL,al         ; 0000e65f e664
        call keyboard_takes             ; 0000e661 e865fa
        in al,KEYBOARD                  ; 0000e664 e460
        popf                            ; 0000e666 9d
        ret                             ; 0000e667 c3

; AX is 63 where a word at 100000h keeps what is written, with A20 on as it is
reach_memory:
        push ds                         ; 0000e668 1e
        push bx                         ; 0000e669 53
        mov bx,0xffff                   ; 0000e66a bbffff
        mov ds,bx                       ; 0000e66d 8edb
        mov bx,[0x10]                   ; 0000e66f 8b1e1000
        not word [0x10]                 ; 0000e673 f7161000
        mov ax,bx                       ; 0000e677 89d8
        not ax                          ; 0000e679 f7d0
        cmp ax,[0x10]                   ; 0000e67b 3b061000
        mov [0x10],bx                   ; 0000e67f 891e1000
        mov ax,63                       ; 0000e683 b83f00
        jz .end                         ; 0000e686 7403
        mov ax,0                        ; 0000e688 b80000
.end:
        pop bx                          ; 0000e68b 5b
        pop ds                          ; 0000e68c 1f
        ret                             ; 0000e68d c3

; ---- INT 16h: keys

keys:
        push bp                         ; 0000e68e 55
        mov bp,sp                       ; 0000e68f 89e5
        push ds                         ; 0000e691 1e
        push bx                         ; 0000e692 53
        mov bx,0x40                     ; 0000e693 bb4000
        mov ds,bx                       ; 0000e696 8edb
        and ah,0xef                     ; 0000e698 80e4ef functions 10h and 11h are 0 and 1 here
        cmp ah,0                        ; 0000e69b 80fc00
        jz .wait                        ; 0000e69e 7411
        cmp ah,1                        ; 0000e6a0 80fc01
        jz .look                        ; 0000e6a3 7426
        cmp ah,2                        ; 0000e6a5 80fc02
        jnz .end                        ; 0000e6a8 7503
        mov al,[SHIFTS]                 ; 0000e6aa a01700
.end:
        pop bx                          ; 0000e6ad 5b
        pop ds                          ; 0000e6ae 1f
        pop bp                          ; 0000e6af 5d
        iret                            ; 0000e6b0 cf
.wait:
        cli                             ; 0000e6b1 fa
        mov bx,[KEYS_HEAD]              ; 0000e6b2 8b1e1a00
        cmp bx,[KEYS_TAIL]              ; 0000e6b6 3b1e1c00
        jnz .take                       ; 0000e6ba 7504
        sti                             ; 0000e6bc fb
        hlt                             ; 0000e6bd f4
        jmp .wait                       ; 0000e6be ebf1
.take:
        mov ax,[bx]                     ; 0000e6c0 8b07
        call next_place                 ; 0000e6c2 e804fb
        mov [KEYS_HEAD],bx              ; 0000e6c5 891e1a00
        jmp .end                        ; 0000e6c9 ebe2
; ZF, in the flags that IRET takes, is 1 where there is none
.look:
        or word [bp+6],0x40             ; 0000e6cb 834e0640
        mov bx,[KEYS_HEAD]              ; 0000e6cf 8b1e1a00
        cmp bx,[KEYS_TAIL]              ; 0000e6d3 3b1e1c00
        jz .end                         ; 0000e6d7 74d4
        and word [bp+6],0xffbf          ; 0000e6d9 836606bf
        mov ax,[bx]                     ; 0000e6dd 8b07
        jmp .end                        ; 0000e6df ebcc

; ---- INT 19h: the first sector, which ends in 55h and AAh, is read and started. DL is the number of the disk.

boot:
        sti                             ; 0000e6e1 fb
        cld                             ; 0000e6e2 fc
        xor ax,ax                       ; 0000e6e3 31c0
        mov ds,ax                       ; 0000e6e5 8ed8
        mov es,ax                       ; 0000e6e7 8ec0
        mov dx,0x0080                   ; 0000e6e9 ba8000
        mov cx,0x0001                   ; 0000e6ec b90100
        mov bx,BOOT                     ; 0000e6ef bb007c
        mov ax,0x0201                   ; 0000e6f2 b80102
        int 0x13                        ; 0000e6f5 cd13
        jc .none                        ; 0000e6f7 720d
        cmp word [BOOT+510],0xaa55      ; 0000e6f9 813efe7d55aa
        jnz .none                       ; 0000e6ff 7505
        jmp 0x0000:BOOT                 ; 0000e701 ea007c0000
.none:
        mov si,no_disk                  ; 0000e706 bef9e7
        call print                      ; 0000e709 e8c4f9
.end:
        hlt                             ; 0000e70c f4
        jmp .end                        ; 0000e70d ebfd

; ---- tables

vectors:
        dw 4 * 0x08, timer              ; 0000e70f 2000e1e0
        dw 4 * 0x09, keyboard           ; 0000e713 24001ee1
        dw 4 * 0x10, video              ; 0000e717 4000d5e1
        dw 4 * 0x11, equipment          ; 0000e71b 440034e3
        dw 4 * 0x12, memory             ; 0000e71f 48003fe3
        dw 4 * 0x13, disk               ; 0000e723 4c00dde3
        dw 4 * 0x15, system             ; 0000e727 5400f3e5
        dw 4 * 0x16, keys               ; 0000e72b 58008ee6
        dw 4 * 0x19, boot               ; 0000e72f 6400e1e6
        dw 4 * 0x1a, time               ; 0000e733 68004ae3
        dw 4 * 0x76, disk_line          ; 0000e737 d8010fe1
        dw 0xffff                       ; 0000e73b ffff

; the keys of shift, control and alt, with their bits
shift_keys:
        db 0x36, 0x01, 0x2a, 0x02, 0x1d, 0x04, 0x38, 0x08 ; 0000e73d 36012a021d043808

; the characters of the keys 0 to 53h; 0 where a key has none
plain_keys:
        db 0, 27, '1234567890-=', 8     ; 0000e745 001b313233343536373839302d3d08
        db 9, 'qwertyuiop[]', 13        ; 0000e754 0971776572747975696f705b5d0d
        db 0, 'asdfghjkl;', 39, '`'     ; 0000e762 006173646667686a6b6c3b2760
        db 0, 92, 'zxcvbnm,./', 0       ; 0000e76f 005c7a786376626e6d2c2e2f00
        db '*', 0, ' ', 0               ; 0000e77c 2a002000
        db 0, 0, 0, 0, 0, 0, 0, 0, 0, 0 ; 0000e780 00000000000000000000
        db 0, 0                         ; 0000e78a 0000
        db 0, 0, 0, '-', 0, 0, 0, '+', 0, 0, 0, 0, 0 ; 0000e78c 0000002d0000002b0000000000
shifted_keys:
        db 0, 27, '!@#$%^&*()_+', 8     ; 0000e799 001b21402324255e262a28295f2b08
        db 9, 'QWERTYUIOP{}', 13        ; 0000e7a8 0951574552545955494f507b7d0d
        db 0, 'ASDFGHJKL:', 34, '~'     ; 0000e7b6 004153444647484a4b4c3a227e
        db 0, '|', 'ZXCVBNM<>?', 0      ; 0000e7c3 007c5a584356424e4d3c3e3f00
        db '*', 0, ' ', 0               ; 0000e7d0 2a002000
        db 0, 0, 0, 0, 0, 0, 0, 0, 0, 0 ; 0000e7d4 00000000000000000000
        db 0, 0                         ; 0000e7de 0000
        db '789-456+1230.'              ; 0000e7e0 3738392d3435362b313233302e

banner:
        db 'm386 BIOS', 13, 10, 0       ; 0000e7ed 6d3338362042494f530d0a00
no_disk:
        db 'No disk to start from.', 13, 10, 0 ; 0000e7f9 4e6f206469736b20746f2073746172742066726f6d2e0d0a00

        times 0xfff0 - ($ - $$) db 0xf4

        jmp 0xf000:start                ; 0000fff0 ea00e000f0

        times 0x10000 - ($ - $$) db 0xf4
