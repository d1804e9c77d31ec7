#include "message.h"

const char *const message = "all is quiet\n";

unsigned char repetitions(void)
{
    return 1;
}
