#include "point.h"
point_t origin = { 1, 2 };
int counter;
static int calls[4];
static int distance(int a, int b) { return a < b ? b - a : a - b; }
int manhattan(const point_t *p) {
    calls[p->x & 3]++;
    return distance(p->x, origin.x) + distance(p->y, origin.y);
}
int shade(enum color c, int level) {
    switch (c) {
    case RED: return level;
    case GREEN: return level * 2;
    default: break;
    }
    int sum = 0;
    for (int i = 0; i < level; i++) sum += calls[i & 3];
    return sum;
}
int never_called(int n) { return n + counter; }
