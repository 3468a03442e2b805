# A guest in real mode, to be loaded at LOAD. It sends a prompt, and then the complement of each byte that it receives, until it has sent
# COUNT bytes. Then it writes to the port END. With MODE 0 it polls. With MODE 1 it does all its input and output in the handler of its
# interrupt, whose line has edges. With MODE 2 that has levels.

    .set LOAD, 0x8000
    .set VECTOR, 4 * 0x24       # where real mode looks for the handler of IRQ 4, once IRQ 0 is at 20 hexadecimal
    .set MODE, 0x500            # a byte
    .set COUNT, 0x504           # how many bytes are still to be sent
    .set HELD, 0x508            # how many bytes of the buffer are received and not yet sent
    .set BUFFER, 0x510          # 16 bytes

    .set ROUNDS, 4

    .set DATA, 0x3f8
    .set IER, 0x3f9
    .set ISR, 0x3fa
    .set FCR, 0x3fa
    .set LCR, 0x3fb
    .set MCR, 0x3fc
    .set LSR, 0x3fd
    .set END, 0xf4

# Labels begin with .L, so that none is a symbol: where calls are inlined across packages, a label `send` would be taken for the `send` of the
# C library.

    .code16
guest_start:
    cli
    cld
    xorw %ax, %ax
    movw %ax, %ds
    movw %ax, %es
    movw %ax, %ss
    movw $LOAD, %sp

    # The interrupt controller: edges, vectors from 20 hexadecimal, and IRQ 4 alone.
    movb $0x11, %al
    outb %al, $0x20
    movb $0x20, %al
    outb %al, $0x21
    movb $0x04, %al
    outb %al, $0x21
    movb $0x01, %al
    outb %al, $0x21
    movb $0xef, %al
    outb %al, $0x21
    cmpb $2, MODE
    jne .Lby_edges
    # IRQ 4 alone has levels.
    movw $0x4d0, %dx
    movb $0x10, %al
    outb %al, %dx
.Lby_edges:
    movw $(.Lhandler - guest_start + LOAD), VECTOR
    movw $0, VECTOR + 2

    # The serial port: 8n1, the FIFO on and cleared, trigger level 14, DTR, RTS and OUT2.
    movw $LCR, %dx
    movb $0x03, %al
    outb %al, %dx
    movw $FCR, %dx
    movb $0xc7, %al
    outb %al, %dx
    movw $MCR, %dx
    movb $0x0b, %al
    outb %al, %dx
    # The prompt: now the port is set up, and nothing that is typed is cleared.
    movw $DATA, %dx
    movb $'>', %al
    outb %al, %dx
    cmpb $0, MODE
    jne .Lby_interrupts

.Lpolled:
    call .Lreceive
    cmpw $0, HELD
    je .Lpolled
.Lnot_empty:
    movw $LSR, %dx
    inb %dx, %al
    testb $0x20, %al
    jz .Lnot_empty
    call .Lsend
    cmpl $0, COUNT
    jne .Lpolled
    jmp .Lend

.Lby_interrupts:
    movw $IER, %dx
    movb $0x01, %al
    outb %al, %dx
    sti
.Lidle:
    hlt
    jmp .Lidle

.Lend:
    outb %al, $END
.Lstopped:
    cli
    hlt
    jmp .Lstopped

    # Serves the chip as long as it has a cause, at most ROUNDS times: Linux has such a limit too. So the guest may leave the handler while
    # the line is still up, and is to be interrupted again. Only one interrupt is enabled at a time: that of received data if nothing is held, and
    # that of an empty transmitter otherwise. So input waits while output does.
.Lhandler:
    pushaw
    movw $ROUNDS, %bp
.Lcause:
    movw $ISR, %dx
    inb %dx, %al
    testb $0x01, %al
    jnz .Lhandled
    andb $0x0f, %al
    cmpb $0x02, %al
    je .Ltransmitter_is_empty
    cmpb $0x04, %al
    je .Llevel_is_reached
    call .Lreceive
    jmp .Lenable
.Llevel_is_reached:
    # At least as many characters wait as the trigger level says: one instruction reads these.
    movw $14, %cx
    movw %cx, HELD
    movw $BUFFER, %di
    movw $DATA, %dx
    rep insb
    jmp .Lenable
.Ltransmitter_is_empty:
    call .Lsend
    # The guest ends here, and not where it idles. There it would have to look at COUNT and halt with no interrupt in between, for which
    # `sti` holds interrupts off for one instruction. QEMU forgets that when a virtual machine of an emulated processor exits there.
    cmpl $0, COUNT
    je .Lend
.Lenable:
    movb $0x01, %al
    cmpw $0, HELD
    je .Lonly_data
    movb $0x02, %al
.Lonly_data:
    movw $IER, %dx
    outb %al, %dx
    decw %bp
    jnz .Lcause
.Lhandled:
    movb $0x20, %al
    outb %al, $0x20
    popaw
    iretw

    # Receives what waits, at most as much as the FIFO of the transmitter takes. Nothing is held before.
.Lreceive:
    movw $BUFFER, %di
.Lreceive_one:
    movw $LSR, %dx
    inb %dx, %al
    testb $0x01, %al
    jz .Lreceived
    movw $DATA, %dx
    insb
    cmpw $(BUFFER + 16), %di
    jb .Lreceive_one
.Lreceived:
    subw $BUFFER, %di
    movw %di, HELD
    ret

    # Sends the complement of what is held. The transmitter is empty.
.Lsend:
    movw $BUFFER, %si
    movw HELD, %cx
    movw $DATA, %dx
.Lsend_one:
    lodsb
    notb %al
    outb %al, %dx
    decl COUNT
    loop .Lsend_one
    movw $0, HELD
    ret
guest_end:
    .code64
