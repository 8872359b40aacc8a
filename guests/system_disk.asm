; The disk of the system: a mebibyte, of which task A sums up the first 64 sectors. Ticks come from the script, one
; every 5,000 steps.
; disk 1048576 bytes of 11
; with the ROM of system
; run --steps 5000000
        bits 16
        cpu 386
        org 0

        db "Sector 0"                   ; 00000000 536563746f722030
        times 512-($-$$) db 0x11
        db "Sector 1"                   ; 00000200 536563746f722031
        times 63*512-($-$$) db 0x11
        db "Sector 63"                  ; 00007e00 536563746f72203633
        times 64*512-($-$$) db 0x11
        db "Sector 64, which is not read" ; 00008000 536563746f722036342c207768696368206973206e6f742072656164
        times 1048576-($-$$) db 0x11
