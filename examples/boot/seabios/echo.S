/* SPDX-License-Identifier: MIT OR Apache-2.0 */
/* A boot sector that sends back what it receives at COM1 by INT 14h, at 9600 baud with 8 data bits, for a test of SeaBIOS. */
    .code16
    .globl _start
_start:
    xor %dx, %dx
    mov $0x00e3, %ax
    int $0x14
    mov $text, %si
    mov %dx, %ds
print:
    lodsb
    call send
    cmp $'\n', %al
    jne print
receive:
    mov $2, %ah
    int $0x14
    test $0x80, %ah     /* no character came in its time */
    jnz receive
    call send
    jmp receive
send:
    push %ax
    mov $1, %ah
    int $0x14
    pop %ax
    ret
text:
    .ascii "INT 14h sends what it receives\r\n"

    .org 510
    .word 0xaa55
