static long calls = 70000;
unsigned char level __attribute__((weak)) = 4;
void hook(void) { calls += level; }
