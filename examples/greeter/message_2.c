#include "message.h"

const char *const message = "movement in sector 4, and it comes nearer\n";

/* A weak helper: a component that has a better one may bring it. */
__attribute__((weak)) unsigned char alarm_level(void)
{
    return 2;
}

unsigned char repetitions(void)
{
    return alarm_level();
}
