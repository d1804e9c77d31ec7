#ifndef UART_H
#define UART_H

/* Prints a string on USART 0: 9,600 baud at 8 MHz, 8 data bits, no parity, one stop bit. */
void uart_print(const char *text);

/* How many characters were printed since the start. */
extern unsigned uart_count;

#endif
