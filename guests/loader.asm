; A boot sector for the BIOS beside it. It waits for a key, shows it, reads the second sector and shows the text
; that stands there.
; disk 1048576 bytes of 00
; with the ROM of bios
; run --steps 2000000
        bits 16
        cpu 386
        org 0x7c00

SECOND  equ 0x7e00

start:
        cld                             ; 00000000 fc
        mov [drive],dl                  ; 00000001 88167c7c
        mov si,asks                     ; 00000005 be7d7c
        call print                      ; 00000008 e85e00
        mov ah,0x00                     ; 0000000b b400
        int 0x16                        ; 0000000d cd16
        call put                        ; 0000000f e86200
        mov si,line_end                 ; 00000012 be8b7c
        call print                      ; 00000015 e85100
; one sector: cylinder 0, head 0, sector 2
        mov ax,0x0201                   ; 00000018 b80102
        mov bx,SECOND                   ; 0000001b bb007e
        mov cx,0x0002                   ; 0000001e b90200
        mov dh,0                        ; 00000021 b600
        mov dl,[drive]                  ; 00000023 8a167c7c
        int 0x13                        ; 00000027 cd13
        mov si,SECOND                   ; 00000029 be007e
        jnc .read                       ; 0000002c 7303
        mov si,fails                    ; 0000002e be8e7c
.read:
        call print                      ; 00000031 e83500
; the state that its report shows
        cli                             ; 00000034 fa
        mov eax,0x1                     ; 00000035 66b801000000
        mov ebx,0x2                     ; 0000003b 66bb02000000
        mov ecx,0x3                     ; 00000041 66b903000000
        mov edx,0x4                     ; 00000047 66ba04000000
        mov esi,0x5                     ; 0000004d 66be05000000
        mov edi,0x6                     ; 00000053 66bf06000000
        mov ebp,0x7                     ; 00000059 66bd07000000
        mov esp,0x7c00                  ; 0000005f 66bc007c0000
        xor eax,eax                     ; 00000065 6631c0
        hlt                             ; 00000068 f4

; the text at DS:SI, up to a zero
print:
        lodsb                           ; 00000069 ac
        cmp al,0                        ; 0000006a 3c00
        jz .end                         ; 0000006c 7405
        call put                        ; 0000006e e80300
        jmp print                       ; 00000071 ebf6
.end:
        ret                             ; 00000073 c3

; the character AL
put:
        mov ah,0x0e                     ; 00000074 b40e
        mov bx,0x0007                   ; 00000076 bb0700
        int 0x10                        ; 00000079 cd10
        ret                             ; 0000007b c3

drive:
        db 0                            ; 0000007c 00
asks:
        db 'Press a key: ', 0           ; 0000007d 50726573732061206b65793a2000
line_end:
        db 13, 10, 0                    ; 0000008b 0d0a00
fails:
        db 'The disk can not be read.', 13, 10, 0 ; 0000008e 546865206469736b2063616e206e6f7420626520726561642e0d0a00

        times 510 - ($ - $$) db 0
        db 0x55, 0xaa                   ; 000001fe 55aa

; the second sector
        db 'From the second sector.', 13, 10, 0 ; 00000200 46726f6d20746865207365636f6e6420736563746f722e0d0a00
        times 1024 - ($ - $$) db 0
