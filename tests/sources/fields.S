    .section .text.fields, "ax", @progbits
    .global fields
fields:
    ldi r24, lo8(buffer + 3)
    ldi r25, hi8(buffer + 3)
    ldi r26, hh8(buffer)
    ldi r30, lo8(pm(fields))
    ldi r31, hi8(pm(fields))
    ldi r30, lo8(gs(elsewhere))
    ldi r31, hi8(gs(elsewhere))
    subi r24, lo8(-(buffer))
    sbci r25, hi8(-(buffer))
    lds r16, buffer
    sts buffer + 1, r16
    adiw r24, limit
    ldd r17, Y + limit
    ldi r18, limit
    ldi r18, lo8(__stack)
    ldi r19, hi8(__heap_start)
    ldi r20, lo8(__bss_end)
    call elsewhere
    rcall fields
    brne fields
    jmp fields + 4
    ret
    .byte 1
    .section .progmem.table, "a", @progbits
    .word fields, pm(fields), gs(elsewhere), __data_load_start, __data_end
    .byte 7
    .section .bss.buffer, "aw", @nobits
    .byte 0
buffer:
    .skip 9
    .section .data.addresses, "aw", @progbits
    .byte 3
    .word fields, buffer - 2, pm(fields), gs(elsewhere), __bss_start, __data_start
    .long buffer + 2
    .byte lo8(buffer), hi8(buffer), limit
    .section .rodata, "a", @progbits
    .byte 9
