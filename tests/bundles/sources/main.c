#include "point.h"
static const char *const names[] = { "red", "green" };
int main(int argc, char **argv) {
    point_t here = { argc, 4 };
    union { int whole; char bytes[4]; } mix;
    mix.whole = manhattan(&here);
    counter += mix.bytes[0];
    return shade(GREEN, mix.whole) + names[argc & 1][0] + (argv != 0);
}
