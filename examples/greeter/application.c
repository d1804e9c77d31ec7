#include "message.h"
#include "uart.h"

/* Initialised data: its value stands in flash behind all code, and the startup component copies it to RAM. */
char prefix[] = "mote: ";

int main(void)
{
    for (unsigned char n = repetitions(); n > 0; n--) {
        uart_print(prefix);
        uart_print(message);
    }
    if (uart_count == 0)
        uart_print("nothing was printed\n");
    return 0;
}
