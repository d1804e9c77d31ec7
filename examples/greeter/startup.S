; What stands at flash address 0: the interrupt vectors, and what a C program expects before main. This component comes first in the
; set, so that its code is where the processor starts. The linker gives the names that begin with two underscores.

#include <avr/io.h>

  .text
  .global vectors
vectors:
  jmp reset
  .rept 34            ; this program takes no interrupts: each of the ATmega128's other 34 vectors starts it anew
  jmp reset
  .endr

reset:
  clr r1
  out _SFR_IO_ADDR(SREG), r1
  ldi r28, lo8(__stack)
  ldi r29, hi8(__stack)
  out _SFR_IO_ADDR(SPH), r29
  out _SFR_IO_ADDR(SPL), r28

  ; initial values of data, from flash to RAM; flash above 64 KiB goes by RAMPZ
  ldi r26, lo8(__data_start)
  ldi r27, hi8(__data_start)
  ldi r30, lo8(__data_load_start)
  ldi r31, hi8(__data_load_start)
  ldi r16, hh8(__data_load_start)
  out _SFR_IO_ADDR(RAMPZ), r16
  ldi r17, hi8(__data_end)
  rjmp 2f
1:
  elpm r0, Z+
  st X+, r0
2:
  cpi r26, lo8(__data_end)
  cpc r27, r17
  brne 1b

  ; zeros in bss
  ldi r26, lo8(__bss_start)
  ldi r27, hi8(__bss_start)
  ldi r17, hi8(__bss_end)
  rjmp 4f
3:
  st X+, r1
4:
  cpi r26, lo8(__bss_end)
  cpc r27, r17
  brne 3b

  call main

  ; main has come back: nothing is left to do until the next reset
  cli
  sleep
  rjmp .-4
