    .text
    .global far
far:
    rcall elsewhere
    brne elsewhere
