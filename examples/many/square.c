#include "greet.h"

int square(int side) {
    return side * side;
}

int cube(int side) {
    return side * square(side);
}
