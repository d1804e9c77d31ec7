#include <stdint.h>
extern uint16_t count;
struct packet { uint8_t kind; const char *text; void (*done)(void); uint8_t *to; };
static uint8_t buffer[9];
extern void hook(void);
struct packet packet = {3, "packet", hook, buffer + 4};
void radio_put(uint8_t b) { buffer[count % 9] = b; packet.kind = b; if (packet.done) packet.done(); }
