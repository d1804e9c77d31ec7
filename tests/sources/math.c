#include <math.h>
#include <string.h>
static struct { float x; long y; char name[7]; } point = {1.5, -3, "point"};
float scaled(float a) { return sinf(a) * point.x + (float)point.y + (float)strlen(point.name); }
