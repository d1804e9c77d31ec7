    .text
    .global elsewhere
    .skip 5000
elsewhere:
    rjmp .-2
