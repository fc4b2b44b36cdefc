# The stick's first block, which the BIOS reads to 7c00 and runs: it has the BIOS read block 1, writes its text to the serial port COM1, and
# behind it each key up to Enter. Then it resets the machine. These are the bytes of devices.txt:
#
#     as --32 boot.S -o boot.o && ld -m elf_i386 -Ttext 0x7c00 -e 0x7c00 --oformat binary boot.o -o boot.bin

        .code16
        xorw    %ax, %ax
        movw    %ax, %ds
        movw    %ax, %ss
        movw    $0x7c00, %sp
        cld
        movw    $packet, %si
        movb    $0x42, %ah              # extended read from the drive in %dl, where the BIOS booted from
        int     $0x13
        jc      over
        movw    $0x7e00, %si
text:   lodsb
        testb   %al, %al
        jz      keys
        call    put
        jmp     text
keys:   movb    $0, %ah                 # wait for a key: its character in %al
        int     $0x16
        call    put
        cmpb    $'\r', %al
        jne     keys
        movb    $'\n', %al
        call    put
over:   movb    $0xfe, %al              # the keyboard controller's reset
        outb    %al, $0x64
        hlt
        jmp     over

# Writes %al to COM1, when it is ready for it.
put:    movb    %al, %bl
        movw    $0x3fd, %dx
wait:   inb     %dx, %al
        testb   $0x20, %al
        jz      wait
        movb    %bl, %al
        movw    $0x3f8, %dx
        outb    %al, %dx
        ret

# 16 bytes; 1 block to 0000:7e00, from block 1.
packet: .byte   16, 0
        .word   1, 0x7e00, 0
        .quad   1

        .org    510
        .word   0xaa55
