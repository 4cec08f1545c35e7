/*
 * How the processors of the test guest begin, and the two pieces of code that one access runs through.
 *
 * There is no BIOS: the first processor begins at the reset vector in real mode, the others at 0x8000, and both go to
 * start16. Each takes a number and a stack of a page, and calls walk(number).
 */
#define PORT $0xe9
#define CPUS_SO_FAR 0x100
#define STACKS 0x20000

    .section .reset, "ax"
    .code16
    jmp start16

    .section .start, "ax"               /* linked at 0xffffff00, which real mode has as 0xf000:0xff00 */
start16:
    cli
    lgdtl %cs:(0xff00 + gdtr - start16)
    movl %cr0, %eax
    orl $1, %eax
    movl %eax, %cr0
    ljmpl $8, $start32
    .code32
start32:
    movw $16, %ax
    movw %ax, %ds
    movw %ax, %es
    movw %ax, %ss
    movl $CPUS_SO_FAR, %eax
    movl $1, %ebx
    lock xaddl %ebx, (%eax)
    movl %ebx, %esp
    incl %esp
    shll $12, %esp
    addl $STACKS, %esp
    pushl %ebx
    call walk
    .balign 8
gdt:
    .quad 0, 0x00cf9b000000ffff, 0x00cf93000000ffff /* marked as accessed: a processor cannot mark them in a ROM */
gdtr:
    .word 23
    .long gdt

    .text
    .global trampoline, read_word, write_word, write_hot_pages

/* What another processor begins with, once it is copied to 0x8000: a jump to start16. */
trampoline:
    .byte 0xea
    .word 0xff00, 0xf000

/*
 * An access is to the word at ecx, which is cell edi of page esi, and its value is in ebx and edx. It tells a look, touches the word, which
 * waits if the page is absent, and tells the other look and what it does. A write is one instruction: MMX's move, the only one of MMX that
 * KVM emulates, as it does with this whole guest on some machines. A read is two, since nobody else writes meanwhile. From the touch on it is
 * one run of instructions without a jump and within one page of code. Older QEMUs (5.2, 7.2) translate it as one block, and TCG stops a
 * processor only between blocks: all of it is on one side of the halt. Newer ones (10.0, 11.1) end a block behind each `out`, and KVM stops a
 * processor anywhere: there the halt may come into an access. What was told of it by then says on which side a read is: it stands right
 * before the value's first byte. A write stands right before the last byte.
 * Nothing else in memory is written.
 */
    .macro tell byte
    movb \byte, %al
    outb %al, PORT
    .endm

    .macro tell_bits
    movl %ebx, %eax
    andb $63, %al
    orb $128, %al
    outb %al, PORT
    .endm

    .macro tell_number value, count
    movl \value, %ebx
    .rept \count
    tell_bits
    shrl $6, %ebx
    .endr
    .endm

    .macro tell_value
    .rept 11
    tell_bits
    shrdl $6, %edx, %ebx
    shrl $6, %edx
    .endr
    .endm

    .macro tell_look
    tell $0xc1
    tell_number %esi, 3
    .endm

    .macro begin_access what
    tell_look
    jmp 1f
    .balign 512
1:  movl (%ecx), %eax
    tell_look
    tell \what
    tell_number %esi, 3
    tell_number %edi, 2
    .endm

    .macro read_here keep:vararg
    begin_access $0xc2
    movl (%ecx), %ebx
    movl 4(%ecx), %edx
    \keep
    tell_value
    .endm

    .macro write_here low, high, write:vararg
    begin_access $0xc3
    movl \low, %ebx
    movl \high, %edx
    tell_value
    \write
    tell $0xc4
    .endm

    .macro enter_access
    pushl %ebx
    pushl %esi
    pushl %edi
    movl 16(%esp), %ecx
    movl 20(%esp), %esi
    movl 24(%esp), %edi
    .endm

    .macro leave_access
    popl %edi
    popl %esi
    popl %ebx
    ret
    .endm

/* read_word(word, page, cell) */
read_word:
    enter_access
    read_here
    leave_access

/* write_word(word, page, cell, low, high) */
write_word:
    enter_access
    movq 28(%esp), %mm0
    write_here 28(%esp), 32(%esp), movq %mm0, (%ecx)
    leave_access

/*
 * write_hot_pages(word, page, end, cpu, flush): adds 1 to the first 32 bits of each page from `page` to `end`, over and over, and writes
 * nothing else: no stack, no lock. `word` is the first word of `page`.
 */
write_hot_pages:
    xorl %edi, %edi
first_page:
    movl 4(%esp), %ecx
    movl 8(%esp), %esi
next_page:
    cmpl $0, 20(%esp)
    je 1f
    invlpg (%ecx)
1:  tell $0xc0
    tell_number 16(%esp), 1
    read_here leal 1(%ebx), %ebp
    tell $0xc0
    tell_number 16(%esp), 1
    write_here %ebp, 4(%ecx), movl %ebp, (%ecx)
    addl $4096, %ecx
    incl %esi
    cmpl 12(%esp), %esi
    jb next_page
    jmp first_page

    .section .note.GNU-stack, "", @progbits
