; COLLATE FILE CHAPTER OLD NEW [TIMES]
;
; A small collation program in the manner of CP/M-86: in one chapter of a collation file it replaces the siglum OLD by NEW, and
; prints how many records had it. The file's name is in the control block at 5CH of the base page, CHAPTER (a decimal number), OLD
; and NEW (one or two characters) stand in the command tail at 80H, behind the file's name, as the command processor lays them. With
; TIMES it goes through the chapter so many times, with OLD and NEW exchanged each time.
;
; On its way it does what such programs do: it sets its DMA address, opens, reads the contents by a random read, asks for memory and
; reads the chapter into it sixteen records a call, walks it by random reads and writes, counts the files of the disk, renames a
; file that it finds and renames it back, and frees what it was given. It has code and data (small model).

        bits 16

SYSTEM          equ 224         ; the interrupt of SCP 1700

; functions
END_PROGRAM     equ 0
PUT_CHARACTER   equ 2
PUT_TEXT        equ 9
OPEN            equ 15
CLOSE           equ 16
SEARCH_FIRST    equ 17
SEARCH_NEXT     equ 18
RENAME          equ 23
SET_DMA         equ 26
READ_RANDOM     equ 33
WRITE_RANDOM    equ 34
SET_DMA_BASE    equ 51
GET_MEMORY      equ 55
FREE_MEMORY     equ 57
READ_SEVERAL    equ 220

; the base page
FCB             equ 5Ch
TAIL            equ 80h

; a control block
NAME            equ 1
NEW_NAME        equ 17
CR              equ 32
R0              equ 33
R2              equ 35
FCB_BYTES       equ 36

RECORD_BYTES    equ 128
PLACES          equ 16          ; of the contents
PLACE_BYTES     equ 8
MOST            equ 16          ; records of a call
NO_FILE         equ 255

        section .code start=0 vstart=0

start:  mov     ax, ds
        mov     es, ax
        call    own_buffer
        call    take_tail
        jc      wrong
        mov     dx, FCB
        mov     cl, OPEN
        int     SYSTEM
        cmp     al, NO_FILE
        je      wrong
        xor     ax, ax                  ; the contents are record 0
        call    read
        jnz     wrong
        call    find_chapter
        jc      wrong
        call    look_ahead
        jc      wrong
        call    replace
        jc      wrong
        mov     ax, [matched]
        cmp     ax, [seen]              ; both ways to read must have met the same records
        jne     wrong
again:  dec     word [rounds]
        jz      enough
        mov     ax, [old]
        xchg    ax, [new]
        mov     [old], ax
        call    replace
        jc      wrong
        jmp     again
enough: call    there_and_back
        mov     dx, FCB
        mov     cl, CLOSE
        int     SYSTEM
        mov     ax, [matched]
        call    put_number
        mov     dx, records_text
        jmp     say
wrong:  mov     dx, wrong_text
say:    mov     cl, PUT_TEXT
        int     SYSTEM
        mov     dl, 13
        mov     cl, PUT_CHARACTER
        int     SYSTEM
        mov     dl, 10
        mov     cl, PUT_CHARACTER
        int     SYSTEM
        mov     dl, 0
        mov     cl, END_PROGRAM
        int     SYSTEM

; The transfer buffer is our own.
own_buffer:
        mov     dx, ds
        mov     cl, SET_DMA_BASE
        int     SYSTEM
        mov     dx, buffer
        mov     cl, SET_DMA
        int     SYSTEM
        ret

; Reads record AX into the buffer; zero is set where that was done.
read:   mov     cl, READ_RANDOM
        jmp     random
; Writes the buffer to record AX likewise.
write:  mov     cl, WRITE_RANDOM
random: mov     [FCB + R0], ax
        mov     byte [FCB + R2], 0
        mov     dx, FCB
        int     SYSTEM
        test    al, al
        ret

; Where the chapter's records are: first and count from the contents in the buffer. Carry: the chapter is not there.
find_chapter:
        mov     si, buffer
        mov     cx, PLACES
.place: mov     ax, [si]
        cmp     ax, [chapter]
        je      .found
        add     si, PLACE_BYTES
        loop    .place
        stc
        ret
.found: mov     ax, [si + 2]
        mov     [first], ax
        mov     ax, [si + 4]
        mov     [count], ax
        clc
        ret

; Reads the whole chapter into memory that is asked for, up to sixteen records a call, and counts the matching ones.
look_ahead:
        mov     word [seen], 0
        mov     dx, mcb
        mov     cl, GET_MEMORY
        int     SYSTEM
        test    al, al
        jnz     .fails
        mov     ax, [first]             ; a random read sets the position that the calls of several go on from
        call    read
        jnz     .fails
        mov     dx, [mcb]
        mov     cl, SET_DMA_BASE
        int     SYSTEM
        xor     dx, dx
        mov     cl, SET_DMA
        int     SYSTEM
        mov     ax, [count]
        mov     [left], ax
.call:  mov     ax, [left]
        cmp     ax, MOST
        jbe     .few
        mov     ax, MOST
.few:   mov     [asked], ax
        mov     ch, al
        mov     cl, READ_SEVERAL
        mov     dx, FCB
        int     SYSTEM
        test    al, al
        jnz     .fails
        call    count_matches
        mov     ax, [asked]
        sub     [left], ax
        jnz     .call
        call    own_buffer
        mov     dx, mcb
        mov     cl, FREE_MEMORY
        int     SYSTEM
        test    al, al
        jnz     .fails
        clc
        ret
.fails: stc
        ret

; Counts the records in the memory whose siglum is the old one.
count_matches:
        push    ds
        mov     cx, [asked]
        mov     dx, [old]
        mov     ds, [mcb]
        xor     si, si
        xor     bx, bx
.one:   cmp     [si], dx
        jne     .next
        inc     bx
.next:  add     si, RECORD_BYTES
        loop    .one
        pop     ds
        add     [seen], bx
        ret

; Walks the chapter record by record, and rewrites those that match. Carry: a record could not be read or written.
replace:
        mov     word [matched], 0
        mov     ax, [first]
        mov     [record], ax
        mov     ax, [count]
        mov     [left], ax
.one:   mov     ax, [record]
        call    read
        jnz     .fails
        mov     ax, [buffer]
        cmp     ax, [old]
        jne     .next
        inc     word [matched]
        mov     ax, [new]
        mov     [buffer], ax
        mov     ax, [record]
        call    write
        jnz     .fails
.next:  inc     word [record]
        dec     word [left]
        jnz     .one
        clc
        ret
.fails: stc
        ret

; Looks through all files of the disk, and renames the first whose name ends in .BAK to .$$$ and back.
there_and_back:
        mov     dx, any_file
        mov     cl, SEARCH_FIRST
        int     SYSTEM
.file:  cmp     al, NO_FILE
        je      .none
        mov     bl, al                  ; the entry is one of the four in the buffer
        mov     bh, 0
        mov     cl, 5
        shl     bx, cl
        add     bx, buffer
        call    ends_in_bak
        je      .found
        mov     cl, SEARCH_NEXT
        int     SYSTEM
        jmp     .file
.found: mov     si, bx                  ; the name as it is, and with the other type
        inc     si
        mov     di, renaming + NAME
        mov     cx, 11
        rep     movsb
        mov     si, renaming + NAME
        mov     di, renaming + NEW_NAME
        mov     cx, 8
        rep     movsb
        mov     ax, '$$'
        stosw
        stosb
        call    rename
        call    swap_names
        call    rename
.none:  ret

; Zero is set where the entry at BX is of a file whose type is BAK.
ends_in_bak:
        cmp     byte [bx + 9], 'B'
        jne     .no
        cmp     byte [bx + 10], 'A'
        jne     .no
        cmp     byte [bx + 11], 'K'
.no:    ret

rename: mov     dx, renaming
        mov     cl, RENAME
        int     SYSTEM
        ret

swap_names:
        mov     si, renaming + NAME
        mov     di, renaming + NEW_NAME
        mov     cx, 11
.byte:  mov     al, [si]
        xchg    al, [di]
        mov     [si], al
        inc     si
        inc     di
        loop    .byte
        ret

; CHAPTER, OLD and NEW from the tail, behind its first word. Carry: one is missing.
take_tail:
        mov     si, TAIL
        lodsb
        mov     ah, 0
        mov     bx, si
        add     bx, ax
        mov     byte [bx], 0            ; the tail ends here
        call    skip_blanks
        call    skip_word               ; the file, which is in the control block already
        call    take_number
        mov     [chapter], bx
        call    take_siglum
        jc      .fails
        mov     [old], ax
        call    take_siglum
        jc      .fails
        mov     [new], ax
        call    take_number
        or      bx, bx
        jz      .once
        mov     [rounds], bx
.once:  clc
.fails: ret

; The next word as a decimal number, in BX; 0 where there is none.
take_number:
        call    skip_blanks
        xor     bx, bx
.digit: mov     al, [si]
        sub     al, '0'
        cmp     al, 9
        ja      .done
        inc     si
        mov     ah, 0
        xchg    ax, bx
        mov     cx, 10
        mul     cx
        add     bx, ax
        jmp     .digit
.done:  ret

; The next word as a siglum of two bytes, a blank for a second that is not there. Carry: there is none.
take_siglum:
        call    skip_blanks
        mov     al, [si]
        cmp     al, 0
        stc
        je      .none
        inc     si
        mov     ah, [si]
        cmp     ah, ' '
        jbe     .short
        inc     si
        clc
        ret
.short: mov     ah, ' '
        clc
.none:  ret

skip_blanks:
        cmp     byte [si], ' '
        jne     .done
        inc     si
        jmp     skip_blanks
.done:  ret

skip_word:
        cmp     byte [si], ' '
        jbe     .done
        inc     si
        jmp     skip_word
.done:  ret

; Prints AX in decimal.
put_number:
        mov     bx, 10
        xor     cx, cx
.divide:
        xor     dx, dx
        div     bx
        push    dx
        inc     cx
        test    ax, ax
        jnz     .divide
.print: pop     dx
        push    cx
        add     dl, '0'
        mov     cl, PUT_CHARACTER
        int     SYSTEM
        pop     cx
        loop    .print
        ret

        section .data start=1000h vstart=100h   ; behind the base page

records_text    db ' RECORDS$'
wrong_text      db 'NOT DONE$'
any_file        db 0, '???????????', 0, 0, 0, 0
                times FCB_BYTES - 16 db 0
renaming        times FCB_BYTES db 0
mcb             dw 0, MOST * RECORD_BYTES / 16
                db 0
chapter         dw 0
rounds          dw 1
old             dw 0
new             dw 0
first           dw 0
count           dw 0
record          dw 0
left            dw 0
asked           dw 0
seen            dw 0
matched         dw 0
buffer          times RECORD_BYTES db 0
