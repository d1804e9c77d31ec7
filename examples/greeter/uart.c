#include "uart.h"

#include <avr/io.h>

unsigned uart_count;

static void put(char c)
{
    while (!(UCSR0A & (1 << UDRE0)))
        ;
    UDR0 = c;
    uart_count++;
}

void uart_print(const char *text)
{
    UBRR0H = 0;
    UBRR0L = 51;
    UCSR0B = 1 << TXEN0;
    while (*text)
        put(*text++);
}
