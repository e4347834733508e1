#include "greet.h"

int main(void) {
    return greet(square(3));
}

int unused(void) {
    return square(4);
}
