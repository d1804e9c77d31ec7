    .text
    nop
    .weak elsewhere
    .global limit, port
    .equ limit, 33
    .equ port, 0x1234
elsewhere:
    ldi r24, lo8(port)
    ldi r25, hi8(port)
    ldi r24, lo8(absent)
    .weak absent
    ret
