#include "greet.h"

int greet(int times) {
    int count = 0;
    for (int i = 0; i < times; i++) {
        count += i;
    }
    return count;
}
