/*
 * A guest of two loops, for migrations without the recorder: it writes FILL pages from FILL_BASE on and HOT pages from HOT_BASE on,
 * until a byte comes on the first serial port, and then the HOT pages alone. It writes a byte to port 0xe9 after each page of the
 * first loop if TELL is 1, and otherwise after each round.
 *
 * There is no BIOS: the processor begins in real mode at the reset vector, in the last 64 KiB below 1 MiB.
 */
    .code16
start16: cli
    lgdtl %cs:gdtr - start16
    movl %cr0, %eax
    orl $1, %eax
    movl %eax, %cr0
    ljmpl $8, $(0xf0000 + start32 - start16)
    .code32
start32: movw $16, %ax
    movw %ax, %ds
    movw %ax, %es
    xorl %ebp, %ebp
both: incl %ebp
    movl $FILL_BASE, %edi
    movl $FILL, %ecx
1:  movl %ebp, (%edi)
    movl $0x5a5a5a5a, 8(%edi)
    .if TELL
    outb %al, $0xe9
    .endif
    addl $4096, %edi
    loop 1b
    movl $HOT_BASE, %edi
    movl $HOT, %ecx
2:  incl (%edi)
    addl $4096, %edi
    loop 2b
    .if TELL == 0
    outb %al, $0xe9
    .endif
    movw $0x3fd, %dx
    inb %dx, %al
    testb $1, %al
    jz both
hot: movl $HOT_BASE, %edi
    movl $HOT, %ecx
3:  incl (%edi)
    addl $4096, %edi
    loop 3b
    outb %al, $0xe9
    jmp hot
    .balign 8
gdt: .quad 0, 0x00cf9b000000ffff, 0x00cf93000000ffff
gdtr: .word 23
    .long 0xf0000 + gdt - start16
    .org 0xfff0
    .code16
    ljmp $0xf000, $0
    .org 0xffff
    .byte 0
    .section .note.GNU-stack, "", @progbits
