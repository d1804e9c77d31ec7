#include <avr/io.h>
#include <avr/interrupt.h>
#include <avr/pgmspace.h>
#include <stdint.h>
extern void radio_put(uint8_t);
static const uint8_t table[] PROGMEM = {1, 2, 3, 4, 5};
static const char *const names[] = {"one", "two", "one"};
const char text[] = "abc";
uint16_t count;
uint8_t start = 7;
static uint8_t own[5];
void (*later)(void);
__attribute__((weak)) void hook(void) {}
extern void never(void) __attribute__((weak));
ISR(TIMER0_OVF_vect) { count++; own[count % 5]++; }
void send(void) {
    radio_put(pgm_read_byte(&table[count & 3]));
    radio_put(text[count++ & 3]);
    radio_put(names[count & 1][0]);
    hook();
    if (never) never();
    if (start) { later = send; send(); }
}
int choose(int n) {
    switch (n) {
    case 0: return 5;
    case 1: return PINB;
    case 2: radio_put(3); return 77;
    case 3: return count;
    case 4: send(); return 9;
    case 5: return start;
    case 6: radio_put(9); return own[2];
    default: return 0;
    }
}
